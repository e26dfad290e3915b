/* The structs, as Rattle lays them out. tests/c/run compiles it as C and as C++; there is nothing to run. */
#include "bystrodol.h"

#ifdef __cplusplus
#define IS(what, number) static_assert((what) == (number), #what)
#define ALIGNMENT(type) alignof(struct bystrodol_##type)
#else
#define IS(what, number) _Static_assert((what) == (number), #what)
#define ALIGNMENT(type) _Alignof(struct bystrodol_##type)
#endif
#define STRUCT(type, size, alignment) IS(sizeof(struct bystrodol_##type), size); IS(ALIGNMENT(type), alignment)
#define AT(type, field, offset) IS(offsetof(struct bystrodol_##type, field), offset)

STRUCT(settings, 24, 2);
AT(settings, password, 0); AT(settings, address, 4);
AT(settings, level, 8); AT(settings, size, 9); AT(settings, baud, 10); AT(settings, transfer, 11);
AT(settings, sensor, 12); AT(settings, got, 14);
AT(settings, verified, 16); AT(settings, filled1, 17); AT(settings, filled2, 18); AT(settings, found, 19);
AT(settings, origin1, 20); AT(settings, origin2, 22);
IS(BYSTRODOL_OLD_SETTINGS_BYTES, 20);

STRUCT(receiver, 270, 2);
AT(receiver, held, 0); AT(receiver, spare, 267); AT(receiver, count, 268);

STRUCT(line, 294, 2);
AT(line, settings, 0); AT(line, receiver, 24);

STRUCT(received, 24, 8);
AT(received, refusal, 0); AT(received, taken, 8); AT(received, length, 16);

STRUCT(answer, 24, 8);
AT(answer, refusal, 0); AT(answer, used, 8); AT(answer, length, 16);
