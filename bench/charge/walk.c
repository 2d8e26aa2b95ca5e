/* The walk of bench/codec over the UPDATE requests of main.rt.txt, without and with two services. */
#define main codec_main
#include "../codec/walk.c"
#undef main

#define NAMES                                                                                                          \
    "000001074000000f733b3030303030000000010840000011632e6578616d706c65000000"                                         \
    "000001284000000f6578616d706c65000000011b4000000f6578616d706c6500000001024000000c00000004"                         \
    "000001cd4000000b78407900"                                                                                         \
    "000001a04000000c000000020000019f4000000c00000000"                                                                 \
    "000001bb40000020000001c24000000c00000000000001bc4000000b31303000"

#define UNITS                                                                                                          \
    "000001b540000018000001a540000010000000000000003c"                                                                 \
    "000001be40000018000001a5400000100000000000000032"

static const char ONE[] = "010000d8c0000110000000040000000000000000" NAMES UNITS;

static const char TWO[] = "01000130c0000110000000040000000000000000" NAMES
    "000001c840000044" UNITS "000001b04000000c00000001"
    "000001c840000044" UNITS "000001b04000000c00000002";

int main(void) {
    measure("one", ONE);
    measure("two", TWO);
    return 0;
}
