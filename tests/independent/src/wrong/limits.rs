//! Errors in the lengths and the size codes of document 02's request [3].

use super::words::*;

/// A data packet of a length above 256, and one of them that a transfer takes in.
const LONG_DATA: Pick = |case| long_data(case).is_some();
const GOES_IN: Pick = |case| case.in_transfer() && SILENT(case) && LONG_DATA(case);

pub fn add(rows: &mut Rows) {
    // The greatest lengths of packets with identifiers 1, 2, 7 and 8.
    rows.both("all-lengths-258").lengths([258, 258, 258, 258]);
    rows.both("data-length-256").lengths([256, 256, 256, 256]);
    rows.reader("data-length-257").lengths([256, 257, 256, 257]);
    rows.reader("data-length-259").lengths([256, 259, 256, 259]);
    rows.reader("only-2-has-length-258").lengths([256, 258, 256, 256]);
    rows.reader("only-8-has-length-258").lengths([256, 256, 256, 258]);
    rows.reader("command-length-257").lengths([257, 258, 256, 258]);
    rows.reader("whole-command-length-258").only(is_whole).lengths([258, 258, 256, 258]);
    rows.reader("acknowledge-length-258").lengths([256, 258, 258, 258]);
    let not_3 = |request: &Request| request.reader.settings.size_code != 3;
    rows.reader("length-258-at-code-3-only").only(not_3).lengths([256, 256, 256, 256]);
    let no_transfer = |request: &Request| request.reader.settings.transfer == 0;
    rows.reader("length-258-in-a-transfer-only").only(no_transfer).lengths([256, 256, 256, 256]);
    // Data packets of a length above 256.
    rows.reader("long-data-ignored").also(|case| REPLIED(case) && LONG_DATA(case), |case| case.ignore());
    rows.reader("long-data-always-answered").answers(0x0E, |case| !case.in_transfer() && LONG_DATA(case));
    rows.reader("sums-254-bytes").sum_wrong_if(|content| content[254..].iter().any(|&byte| byte != 0));
    rows.reader("counts-content-in-8-bits").sum_wrong_if(|content| content.len() == 256);
    rows.reader("takes-half-of-256").leaves(GOES_IN, |now, old| {
        let Settings { transfer, got, .. } = old.settings;
        let (buffer, rest) = (usize::from(transfer) - 1, usize::from(got) + 128..usize::from(got) + 256);
        now.buffers[buffer][rest.clone()].copy_from_slice(&old.buffers[buffer][rest]);
    });
    // Size codes.
    rows.reader("code-3-means-128").takes_code(3, 2, |case| !case.asks(SET_SYS_PARA) && !case.asks(READ_SYS_PARA));
    rows.reader("sends-256-by-128").takes_code(3, 2, asks(UP_CHAR));
    rows.reader("code-3-told-as-2").takes_code(3, 2, asks(READ_SYS_PARA));
    rows.reader("code-3-refused").takes_code(3, 4, CALL);
    rows.reader("code-4-legal").takes_code(4, 3, CALL);
    rows.reader("code-3-not-set").sets_code(3, [0x00, 0x1B], |old| old.size_code);
    rows.reader("code-3-not-kept").sets_code(3, [0x00, 0x00], |old| old.size_code);
    rows.reader("code-4-set").sets_code(4, [0x1B, 0x00], |_| 4);
    rows.fresh("fresh-size-3").sets(DONE, |now, _| now.size_code = 3);
}

impl Row<'_> {
    /// A reader with these greatest lengths, none of them below 256, of packets with identifiers 1, 2, 7 and 8.
    fn lengths(self, most: [usize; 4]) {
        self.also(CALLED, move |case| {
            let identifiers = [COMMAND, DATA, ACKNOWLEDGE, LAST_DATA];
            let most = |header: &Header| Some(most[identifiers.iter().position(|&known| known == header.identifier)?]);
            match header(&case.request.run).and_then(|header| Some((header.length <= most(&header)?, header))) {
                Some((false, header)) if header.starts_packet() => find_nothing(case, header.place + 2),
                Some((true, header)) if !header.starts_packet() && header.length > MOST_LENGTH => {
                    take_long_packet(case, &header);
                }
                _ => {}
            }
        });
    }

    /// A data packet of a length above 256 whose content is such is dealt with as if its sum were wrong.
    fn sum_wrong_if(self, such: fn(&[u8]) -> bool) {
        self.takes_packet(
            move |case| long_data(case).map_or(false, such),
            |_, found| damaged(packet(found.address, found.identifier, found.content)),
        );
    }

    /// Such a case takes a stored size code for another, and leaves it as it is.
    fn takes_code(self, code: u8, other: u8, such: impl Such) {
        self.as_if(
            move |case| case.old.settings.size_code == code && such(case),
            move |asked| asked.reader.settings.size_code = other,
            move |now, _| now.settings.size_code = code,
        );
    }

    /// A SetSysPara of this size code that gets the first of the two codes gets the second, and leaves another size code.
    fn sets_code(self, asked: u8, [due, told]: [u8; 2], left: fn(&Settings) -> u8) {
        let such = move |case: &Case| case.content == [SET_SYS_PARA, 6, asked] && case.code == Some(due);
        self.also(such, move |case| {
            case.outcome.reader.settings.size_code = left(&case.old.settings);
            case.tell(&[told]);
        });
    }
}

/// Whether all bytes of the first header's packet are there.
fn is_whole(request: &Request) -> bool {
    header(&request.run).map_or(false, |header| request.run.len() >= header.end())
}

/// The call is silent and uses so many bytes.
fn find_nothing(case: &mut Case, used: usize) {
    case.ignore();
    case.outcome.answer.used = used;
}

/// A packet that is longer than the good reader takes. No command and no data that goes in is so long: a shorter one,
/// with a sum that is as right, has the same effect.
fn take_long_packet(case: &mut Case, header: &Header) {
    let run = &case.request.run;
    if run.len() < header.end() {
        return find_nothing(case, header.place);
    }
    let bytes = &run[header.place..header.end()];
    let packet = |content: &[u8]| packet([bytes[2], bytes[3], bytes[4], bytes[5]], header.identifier, content);
    let content = &bytes[9..bytes.len() - 2];
    let shorter = packet(&content[..MOST_LENGTH - 2]);
    let shorter = if packet(content) == bytes { shorter } else { damaged(shorter) };
    case.ask(|asked| asked.run = shorter.clone());
    case.outcome.answer.used = header.end();
}

/// The packet with a wrong sum.
fn damaged(mut packet: Vec<u8>) -> Vec<u8> {
    packet.iter_mut().last().into_iter().for_each(|last| *last ^= 1);
    packet
}

/// The content of a data packet to the reader with a length above 256 and the right sum, if a call deals with one.
fn long_data<'a>(case: &Case<'a>) -> Option<&'a [u8]> {
    let packet = case.packet().filter(|_| CALLED(case))?;
    let ours = packet.address == case.old.settings.address && packet.sum_right;
    // No other packet is so long.
    (ours && packet.content.len() + 2 > MOST_LENGTH).then_some(packet.content)
}
