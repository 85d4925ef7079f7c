/* Prints what tests/c_header.rs expects of include/tigbayon.h; C99 and C++. */
#include "tigbayon.h"

#include <inttypes.h>
#include <stddef.h>
#include <stdio.h>

/* Size and alignment. */
#define LAYOUT(type) (unsigned)sizeof(type), (unsigned)__alignof__(type)
#define AT(type, field) (unsigned)offsetof(type, field)

static void print_layouts(void)
{
    printf("TbGathered %u %u: %u %u %u\n", LAYOUT(TbGathered), AT(TbGathered, refusal),
           AT(TbGathered, count), AT(TbGathered, word));
    printf("TbCarried %u %u: %u %u\n", LAYOUT(TbCarried), AT(TbCarried, refusal),
           AT(TbCarried, word));
    printf("TbPrepared %u %u: %u %u\n", LAYOUT(TbPrepared), AT(TbPrepared, refusal),
           AT(TbPrepared, swaps));
    printf("TbControls1 %u %u: %u %u\n", LAYOUT(TbControls1), AT(TbControls1, refusal),
           AT(TbControls1, stages));
    printf("TbControls2 %u %u: %u %u %u\n", LAYOUT(TbControls2), AT(TbControls2, refusal),
           AT(TbControls2, butterfly), AT(TbControls2, inverse));
    printf("TbMasks %u %u: %u %u\n", LAYOUT(TbMasks), AT(TbMasks, refusal),
           AT(TbMasks, masks));
    printf("TbPacked %u %u: %u %u %u\n", LAYOUT(TbPacked), AT(TbPacked, refusal),
           AT(TbPacked, count), AT(TbPacked, bits));
    printf("TbPlanes %u %u: %u\n", LAYOUT(TbPlanes), AT(TbPlanes, words));
    printf("TbBank %u %u: %u %u %u %u %u %u %u %u\n", LAYOUT(TbBank), AT(TbBank, general),
           AT(TbBank, b), AT(TbBank, ib), AT(TbBank, status), AT(TbBank, enable),
           AT(TbBank, waiting), AT(TbBank, left), AT(TbBank, list));
    printf("TbCycles %u %u: %u %u\n", LAYOUT(TbCycles), AT(TbCycles, refusal),
           AT(TbCycles, cycles));
    printf("TbRun %u %u: %u %u %u %u\n", LAYOUT(TbRun), AT(TbRun, refusal), AT(TbRun, end),
           AT(TbRun, ran), AT(TbRun, cycles));
    printf("TbChannel %u %u: %u %u %u\n", LAYOUT(TbChannel), AT(TbChannel, end),
           AT(TbChannel, ran), AT(TbChannel, cycles));
    printf("TbFrame %u %u: %u %u\n", LAYOUT(TbFrame), AT(TbFrame, refusal),
           AT(TbFrame, channels));
    printf("TbRegister %u %u: %u %u\n", LAYOUT(TbRegister), AT(TbRegister, refusal),
           AT(TbRegister, value));
}

static void print_gathered(const char *call, TbGathered answer)
{
    printf("%s %u %" PRIu32 " %" PRIx64 "\n", call, (unsigned)answer.refusal, answer.count,
           answer.word);
}

static void print_carried(const char *call, TbCarried answer)
{
    printf("%s %u %" PRIx64 "\n", call, (unsigned)answer.refusal, answer.word);
}

static void print_stages(const uint32_t stages[6])
{
    int i;
    for (i = 0; i < 6; i++) {
        printf(" %" PRIx32, stages[i]);
    }
}

static void print_controls1(const char *call, TbControls1 answer)
{
    printf("%s %u", call, (unsigned)answer.refusal);
    print_stages(answer.stages);
    printf("\n");
}

static void print_controls2(const char *call, TbControls2 answer)
{
    printf("%s %u", call, (unsigned)answer.refusal);
    print_stages(answer.butterfly);
    print_stages(answer.inverse);
    printf("\n");
}

static void print_bytes(const uint8_t bytes[8])
{
    int i;
    for (i = 0; i < 8; i++) {
        printf(" %u", (unsigned)bytes[i]);
    }
    printf("\n");
}

static void print_routed(void)
{
    const uint8_t reversal[8] = {7, 6, 5, 4, 3, 2, 1, 0};
    const uint8_t repeated[8] = {0, 0, 2, 3, 4, 5, 6, 7};
    const uint8_t one_switch[8] = {4, 1, 2, 3, 0, 5, 6, 7};
    uint8_t swap[8] = {0, 4, 2, 3, 1, 5, 6, 7};

    print_controls2("route", tb_route(8, reversal, 8));
    print_controls2("route", tb_route(8, swap, 8));
    print_controls1("route_butterfly", tb_route_butterfly(8, swap, 8));
    print_controls1("route_inverse", tb_route_inverse(8, swap, 8));
    print_controls1("route_butterfly", tb_route_butterfly(8, one_switch, 8));
    print_controls1("route_inverse", tb_route_inverse(8, one_switch, 8));
    print_controls2("route", tb_route(12, swap, 8));
    print_controls2("route", tb_route(8, repeated, 8));
    print_controls2("route", tb_route(8, NULL, 0));
    print_controls1("route_butterfly", tb_route_butterfly(8, NULL, 0));
    print_controls1("route_inverse", tb_route_inverse(8, NULL, 0));
    printf("permutation");
    print_bytes(swap);
}

static void print_words(const uint64_t *words, int count)
{
    int i;
    for (i = 0; i < count; i++) {
        printf(" %" PRIx64, words[i]);
    }
    printf("\n");
}

static void print_masks(TbMasks answer)
{
    printf("route_groups %u:", (unsigned)answer.refusal);
    print_words(answer.masks, 6);
}

static void print_groups(void)
{
    const uint8_t repeated[8] = {0, 0, 2, 3, 4, 5, 6, 7};
    uint8_t rotation[8] = {1, 2, 3, 4, 5, 6, 7, 0};
    uint8_t reversal[64];
    const TbMasks answer = tb_route_groups(8, rotation, 8);
    uint64_t word = 0xB6;
    int i;

    print_masks(answer);
    for (i = 0; i < 3; i++) {
        const TbGathered grouped = tb_group(8, answer.masks[i], word);
        print_gathered("group", grouped);
        word = grouped.word;
    }
    for (i = 0; i < 64; i++) {
        reversal[i] = (uint8_t)(63 - i);
    }
    print_masks(tb_route_groups(64, reversal, 64));
    print_masks(tb_route_groups(12, rotation, 8));
    print_masks(tb_route_groups(8, rotation, 7));
    print_masks(tb_route_groups(8, repeated, 8));
    print_masks(tb_route_groups(8, NULL, 0));
    printf("permutation");
    print_bytes(rotation);
}

static void print_swaps(const char *call, TbPrepared answer)
{
    printf("%s %u:", call, (unsigned)answer.refusal);
    print_words(answer.swaps, 6);
}

static void print_prepared(TbControls2 decoded)
{
    const uint32_t zeros[6] = {0, 0, 0, 0, 0, 0};
    const uint32_t unused[6] = {0x10, 0, 0, 0, 0, 0};
    const uint64_t any[6] = {1, 1, 1, 1, 1, UINT64_MAX};
    TbPrepared prepared = tb_prepare_butterfly(8, decoded.butterfly);

    print_swaps("prepare_butterfly", prepared);
    printf("butterfly_prepared %" PRIx64 "\n", tb_butterfly_prepared(prepared.swaps, 0x1A));
    prepared = tb_prepare_inverse(8, decoded.inverse);
    print_swaps("prepare_inverse", prepared);
    printf("inverse_prepared %" PRIx64 "\n", tb_inverse_prepared(prepared.swaps, 0xB6 & 0xAD));
    print_swaps("prepare_butterfly", tb_prepare_butterfly(64, zeros));
    print_swaps("prepare_butterfly", tb_prepare_butterfly(12, unused));
    print_swaps("prepare_inverse", tb_prepare_inverse(8, unused));
    printf("butterfly_prepared %" PRIx64 "\n", tb_butterfly_prepared(any, 1));
    printf("inverse_prepared %" PRIx64 "\n", tb_inverse_prepared(any, 1));
}

static void print_packed(const char *call, TbPacked answer, const uint64_t *out, int count)
{
    printf("%s %u %" PRIu32 " %" PRIu64 ":", call, (unsigned)answer.refusal, answer.count,
           answer.bits);
    print_words(out, count);
}

static void print_packing(void)
{
    uint64_t words[6] = {1, 2, 3, 4, 5, 0x9A6};
    uint64_t packed[3] = {7, 7, 7};
    const uint64_t dirty[3] = {0x6005004003002001, 0x800000000000009A, 7};
    uint64_t out[8] = {7, 7, 7, 7, 7, 7, 7, 7};
    TbPacked answer = tb_pack(0xFFF, words, 6, 0, 6, packed, 3);

    print_packed("pack", answer, packed, 3);
    answer = tb_unpack(0xFFF, packed, 3, 1, 7, out, 8);
    print_packed("unpack", answer, out, 8);
    answer = tb_pack(0xFFF, words, 6, 0, 6, packed, 1);
    print_packed("pack", answer, packed, 3);
    answer = tb_pack(0xFFF, words, 6, 3, 2, packed, 3);
    print_packed("pack", answer, packed, 3);
    answer = tb_unpack(0xFFF, packed, 1, 1, 7, out, 8);
    print_packed("unpack", answer, out, 8);
    answer = tb_unpack(0xFFF, packed, 3, 0, SIZE_MAX, out, 8);
    print_packed("unpack", answer, out, 8);
    answer = tb_unpack(0xFFF, dirty, 3, 0, 6, out, 8);
    print_packed("unpack", answer, out, 8);
    answer = tb_unpack(0xFFF, dirty, 1, 0, 6, out, 8);
    print_packed("unpack", answer, out, 8);
    print_packed("pack", tb_pack(UINT64_MAX, NULL, 0, 0, 0, NULL, 0), NULL, 0);
    print_packed("unpack", tb_unpack(UINT64_MAX, NULL, 0, 0, 0, NULL, 0), NULL, 0);
    print_packed("pack", tb_pack(1, NULL, 0, 0, 1, NULL, 0), NULL, 0);
    print_packed("pack", tb_pack(1, words, 6, 0, 1, NULL, 0), NULL, 0);
    answer = tb_unpack(0, NULL, 0, 1, 7, out, 8);
    print_packed("unpack", answer, out, 8);
    printf("words:");
    print_words(words, 6);
}

static void print_planes(void)
{
    const uint64_t counting[8] = {0xAAAAAAAAAAAAAAAA, 0xCCCCCCCCCCCCCCCC, 0xF0F0F0F0F0F0F0F0,
                                  0xFF00FF00FF00FF00, 0xFFFF0000FFFF0000, 0xFFFFFFFF00000000,
                                  0, 0};
    uint64_t words[8] = {0x81, 0x030000, 0, 0, 0, 0, 0, 0x4000000000000000};
    TbPlanes answer = tb_to_planes(words);

    printf("to_planes:");
    print_words(answer.words, 8);
    answer = tb_from_planes(answer.words);
    printf("from_planes:");
    print_words(answer.words, 8);
    answer = tb_from_planes(counting);
    printf("from_planes:");
    print_words(answer.words, 8);
    printf("words:");
    print_words(words, 8);
}

static void print_tiles(void)
{
    const uint64_t tile = 0x004040407840407E;

    printf("tile_transpose %" PRIx64 "\n", tb_tile_transpose(tile));
    printf("tile_turn_left %" PRIx64 "\n", tb_tile_turn_left(tile));
    printf("tile_turn_right %" PRIx64 "\n", tb_tile_turn_right(tile));
    printf("tile_mirror_columns %" PRIx64 "\n", tb_tile_mirror_columns(tile));
    printf("tile_mirror_rows %" PRIx64 "\n", tb_tile_mirror_rows(tile));
}

static void print_subwords(void)
{
    const uint64_t first = 0x0123456789ABCDEF;
    const uint64_t second = 0x1F2E3D4C5B6A7988;

    print_carried("check", tb_check(8, first, second));
    print_carried("excheck", tb_excheck(16, first, second));
    print_carried("mix_left", tb_mix_left(4, first, second));
    print_carried("mix_right", tb_mix_right(32, first, second));
    print_carried("exchange", tb_exchange(1, first));
    print_carried("check", tb_check(64, first, second));
    print_carried("excheck", tb_excheck(0, first, second));
    print_carried("mix_left", tb_mix_left(3, first, second));
    print_carried("mix_right", tb_mix_right(UINT32_MAX, first, second));
    print_carried("exchange", tb_exchange(12, first));
}

static void print_despeckled(uint8_t answer, const uint64_t out[5])
{
    printf("despeckle %u:", (unsigned)answer);
    print_words(out, 5);
}

static void print_pixels(void)
{
    static uint64_t zeros[2049];
    uint64_t plane[4] = {1, 0x8000000000000000, 0x4000000000000005, 0};
    const size_t half = (size_t)1 << 32;
    uint64_t out[5] = {7, 7, 7, 7, 7};

    print_despeckled(tb_despeckle(plane, 4, 2, 2, out, 5), out);
    print_despeckled(tb_despeckle(plane, 4, 4, 1, out, 5), out);
    print_despeckled(tb_despeckle(plane, 4, 1, 4, out, 4), out);
    print_despeckled(tb_despeckle(zeros, 2049, 1, 4, out, 5), out);
    print_despeckled(tb_despeckle(plane, 4, 1, 4, zeros, 2049), out);
    print_despeckled(tb_despeckle(plane, 4, 2, 2, out, 3), out);
    print_despeckled(tb_despeckle(plane, 4, half, half, out, 5), out);
    print_despeckled(tb_despeckle(plane, 1, SIZE_MAX, SIZE_MAX, out, 1), out);
    print_despeckled(tb_despeckle(plane, 4, 2, 1, out, 5), out);
    print_despeckled(tb_despeckle(plane, 4, 0, SIZE_MAX, out, 5), out);
    print_despeckled(tb_despeckle(NULL, 0, 1, 1, NULL, 0), out);
    print_despeckled(tb_despeckle(NULL, 0, 0, 0, NULL, 0), out);
    print_despeckled(tb_despeckle(NULL, 0, 1, 4, out, 5), out);
    print_despeckled(tb_despeckle(plane, 4, 1, 4, NULL, 0), out);
    print_despeckled(tb_despeckle(zeros, 2048, 32, 64, zeros, 0), out);
    printf("plane:");
    print_words(plane, 4);
}

static void print_ran(const char *call, TbRun answer, const TbBank *bank)
{
    printf("%s %u %u %" PRIu32 " %" PRIu32 ": %" PRIx64 " %x\n", call,
           (unsigned)answer.refusal, (unsigned)answer.end, answer.ran, answer.cycles,
           bank->general[1], (unsigned)bank->status);
}

static void print_run(TbRun answer, const TbBank *bank)
{
    print_ran("run", answer, bank);
}

static void print_continued(TbRun answer, const TbBank *bank)
{
    print_ran("continue", answer, bank);
}

static void print_operated(TbCycles answer, const TbBank *bank)
{
    printf("operate %u %" PRIu32 ": %" PRIx64 " %x\n", (unsigned)answer.refusal, answer.cycles,
           bank->general[1], (unsigned)bank->status);
}

static void print_register(TbRegister answer)
{
    printf("read %u %" PRIx64 "\n", (unsigned)answer.refusal, answer.value);
}

static void print_unit(void)
{
    const TbBank fresh = {{0}, {0}, {0}, 0, 0, 0, 0, {0}};
    uint8_t list[8] = {8, 0, 0, 3, 3, 1, 2, 3};
    TbBank bank = fresh;
    TbBank other;

    printf("ends %d %d %d\n", TB_END_REFUSED, TB_END_DONE, TB_END_SPENT);
    printf("write %u\n", (unsigned)tb_write(&bank, 2, 0xB6));
    printf("write %u\n", (unsigned)tb_write(&bank, 3, 0xAD));
    other = bank;
    print_run(tb_run(&other, list, 8, 3), &other);
    print_run(tb_run(&bank, list, 8, 2), &bank);
    print_run(tb_run(&bank, list, 5, 3), &bank);
    tb_drop(&bank);
    print_run(tb_run(&bank, NULL, 0, 0), &bank);
    print_run(tb_run(&bank, list, 8, 0), &bank);
    tb_drop(&bank);
    bank.general[2] = 0xFFFFFFFFFFFFFFB6;
    bank.general[3] = 0xFFFFFFFFFFFFFFAD;
    print_operated(tb_operate(&bank, 10, 1, 2, 3), &bank);
    print_operated(tb_operate(&bank, 0, 1, 2, 3), &bank);
    print_operated(tb_operate(&bank, 10, 1, 2, 16), &bank);
    print_register(tb_read(&other, 3));
    print_register(tb_read(&other, 16));
    printf("write %u\n", (unsigned)tb_write(&bank, 16, 7));
    printf("list:");
    print_bytes(list);
}

static void print_waits(const TbBank *bank)
{
    printf("waits %u %" PRIu32 ":", (unsigned)bank->waiting, bank->left);
    print_bytes(bank->list);
}

static void print_waiting(void)
{
    TbBank bank = {{0}, {0}, {0}, 0, 0, 0, 0, {0}};
    const uint8_t list[8] = {8, 0, 0, 3, 3, 1, 2, 3};

    printf("sizes %u %u %u\n", (unsigned)sizeof bank.waiting, (unsigned)sizeof bank.left,
           (unsigned)sizeof bank.list);
    print_waits(&bank);
    print_continued(tb_continue(&bank, NULL, 0, 0), &bank);
    tb_write(&bank, 2, 0xB6);
    tb_write(&bank, 3, 0xAD);
    print_run(tb_run(&bank, list, 8, 2), &bank);
    print_waits(&bank);
    print_operated(tb_operate(&bank, 10, 1, 2, 3), &bank);
    print_operated(tb_operate(&bank, 10, 1, 2, 16), &bank);
    print_run(tb_run(&bank, list + 4, 4, 1), &bank);
    print_continued(tb_continue(&bank, list, 8, 3), &bank);
    print_continued(tb_continue(&bank, list + 4, 3, 3), &bank);
    printf("write %u\n", (unsigned)tb_write(&bank, 2, 0xFF));
    print_continued(tb_continue(&bank, list + 4, 4, 0), &bank);
    print_waits(&bank);
    print_continued(tb_continue(&bank, list + 4, 4, 1), &bank);
    print_waits(&bank);
    print_continued(tb_continue(&bank, list + 4, 4, 1), &bank);
    print_run(tb_run(&bank, list, 8, 0), &bank);
    print_waits(&bank);
    tb_drop(&bank);
    print_waits(&bank);
    bank.waiting = 7;
    bank.left = 4097;
    print_continued(tb_continue(&bank, list, 8, 3), &bank);
    bank.left = 0;
    print_continued(tb_continue(&bank, NULL, 0, 0), &bank);
    print_waits(&bank);
}

/* The list of a channel. */
typedef struct {
    const uint8_t *list;
    size_t length;
} Lent;

static void print_frame(TbBank banks[4], const Lent lent[4], const uint32_t guarantees[4],
                        uint32_t cycles)
{
    const TbFrame answer =
        tb_frame(&banks[0], &banks[1], &banks[2], &banks[3], lent[0].list, lent[0].length,
                 lent[1].list, lent[1].length, lent[2].list, lent[2].length, lent[3].list,
                 lent[3].length, guarantees, cycles);
    int i;

    printf("frame %u:", (unsigned)answer.refusal);
    for (i = 0; i < 4; i++) {
        const TbChannel channel = answer.channels[i];
        printf(" %u %" PRIu32 " %" PRIu32 " %x,", (unsigned)channel.end, channel.ran,
               channel.cycles, (unsigned)banks[i].status);
    }
    printf(" %" PRIx64 " %" PRIx64 "\n", banks[0].general[1], banks[2].general[1]);
}

static void print_frames(void)
{
    const TbBank fresh = {{0}, {0}, {0}, 0, 0, 0, 0, {0}};
    const TbFrame sizes = {0, {{0, 0, 0}, {0, 0, 0}, {0, 0, 0}, {0, 0, 0}}};
    const uint8_t list[8] = {8, 0, 0, 3, 3, 1, 2, 3};
    const uint8_t no_kind[4] = {0, 0, 0, 0};
    const Lent two[4] = {{list, 8}, {NULL, 0}, {list, 8}, {no_kind, 0}};
    const Lent refused[4] = {{list, 8}, {NULL, 0}, {list, 8}, {no_kind, 4}};
    const Lent half[4] = {{NULL, 0}, {NULL, 0}, {list + 4, 4}, {NULL, 0}};
    const Lent others[4] = {{NULL, 0}, {list, 8}, {list, 8}, {NULL, 0}};
    const uint32_t first[4] = {2, 1, 1, 0};
    const uint32_t second[4] = {0, 1, 2, 0};
    const uint32_t large[4] = {0, 0, 0, 70000};
    const uint32_t wrapping[4] = {0, UINT32_MAX, UINT32_MAX, 2};
    TbBank banks[4];
    int i;

    printf("sizes %u %u %u %u\n", (unsigned)sizeof sizes.refusal,
           (unsigned)sizeof sizes.channels[0].end, (unsigned)sizeof sizes.channels[0].ran,
           (unsigned)sizeof sizes.channels[0].cycles);
    for (i = 0; i < 4; i++) {
        banks[i] = fresh;
        banks[i].general[2] = 0xB6;
        banks[i].general[3] = 0xAD;
    }
    print_frame(banks, two, first, 3);
    print_frame(banks, refused, first, 3);
    print_frame(banks, two, first, 4);
    print_waits(&banks[0]);
    print_waits(&banks[2]);
    print_frame(banks, half, first, UINT32_MAX);
    print_frame(banks, others, second, UINT32_MAX);
    print_waits(&banks[1]);
    print_frame(banks, others, large, 70000);
    print_frame(banks, others, wrapping, 5);
    printf("list:");
    print_bytes(list);
    printf("guarantees: %" PRIu32 " %" PRIu32 " %" PRIu32 " %" PRIu32 "\n", wrapping[0],
           wrapping[1], wrapping[2], wrapping[3]);
}

static void print_polled(const char *call, const TbBank *bank)
{
    printf("%s: %x %x: %x %u\n", call, (unsigned)bank->status, (unsigned)bank->enable,
           (unsigned)tb_status(bank), (unsigned)tb_interrupt(bank));
}

static void print_polling(void)
{
    const TbBank fresh = {{0}, {0}, {0}, 0, 0, 0, 0, {0}};
    const uint8_t no_kind[4] = {0, 0, 0, 0};
    TbBank bank = fresh;

    printf("statuses %d %d %d\n", TB_STATUS_DONE, TB_STATUS_SPENT, TB_STATUS_REFUSED);
    print_polled("fresh", &fresh);
    tb_enable(&bank, 0xF0 | TB_STATUS_SPENT | TB_STATUS_REFUSED);
    print_polled("enable", &bank);
    tb_run(&bank, NULL, 0, 0);
    print_polled("run", &bank);
    tb_run(&bank, no_kind, 4, 0);
    print_polled("run", &bank);
    tb_acknowledge(&bank, TB_STATUS_REFUSED);
    print_polled("acknowledge", &bank);
    bank.status = 0xF8;
    print_polled("status", &bank);
    tb_run(&bank, no_kind, 4, 0);
    print_polled("run", &bank);
    tb_enable(&bank, TB_STATUS_DONE);
    print_polled("enable", &bank);
    tb_acknowledge(&bank, 0xFF);
    print_polled("acknowledge", &bank);
}

int main(void)
{
    const uint32_t zeros[6] = {0, 0, 0, 0, 0, 0};
    const uint32_t unused[6] = {0x10, 0, 0, 0, 0, 0};
    const TbControls2 decoded = tb_decode(8, 0xAD);

    print_layouts();
    printf("numbers %d %d %d %d %d %d %d %d %d %d %d %d %d %d %d %d\n", TB_CARRIED_OUT,
           TB_REFUSAL_WIDTH, TB_REFUSAL_ABOVE, TB_REFUSAL_UNUSED, TB_REFUSAL_LENGTH,
           TB_REFUSAL_ENTRY, TB_REFUSAL_NOT_REALISED, TB_REFUSAL_KIND, TB_REFUSAL_REGISTER,
           TB_REFUSAL_RANGE, TB_REFUSAL_SHORT, TB_REFUSAL_SPARE, TB_REFUSAL_SUBWORD,
           TB_REFUSAL_PLANE, TB_REFUSAL_WAITING, TB_REFUSAL_FRAME);
    print_gathered("gather", tb_gather(8, 0xAD, 0xB6));
    print_gathered("scatter", tb_scatter(8, 0xAD, 0x1A));
    print_gathered("group", tb_group(8, 0xAD, 0xB6));
    print_gathered("gather", tb_gather(12, 0xAD, 0xB6));
    print_gathered("scatter", tb_scatter(8, 0xAD, 0x100));
    print_gathered("group", tb_group(64, UINT64_MAX, 5));
    print_gathered("gather", tb_gather(8, 0, 0xB6));
    print_gathered("group", tb_group(8, 0x1FF, 0xB6));
    print_controls2("decode", decoded);
    print_controls2("decode", tb_decode(8, 0));
    print_controls2("decode", tb_decode(8, 0x100));
    print_carried("butterfly", tb_butterfly(8, zeros, 0x01));
    print_carried("butterfly", tb_butterfly(8, unused, 0x01));
    print_carried("inverse", tb_inverse(8, decoded.inverse, 0xB6 & 0xAD));
    print_carried("inverse", tb_inverse(12, decoded.inverse, 0xB6));
    print_routed();
    print_groups();
    print_prepared(decoded);
    print_packing();
    print_planes();
    print_tiles();
    print_subwords();
    print_pixels();
    print_unit();
    print_waiting();
    print_frames();
    print_polling();
    return 0;
}
