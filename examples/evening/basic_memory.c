/* The memory of the BASIC: variables, arrays and strings.
 *
 * An array lies behind the program: its name (doubled, and 1 more if it has strings), how many bytes it takes with these, its
 * two last indices (the second is -1 if there is none), and its elements, a word each. A string is a byte that says how
 * long it is, the place that owns it, and its characters; the place has its address, or 0 for an empty string. It's in use as
 * long as that is so. */
#include "basic.h"

#define ARRAY_HEAD 8
#define STRING_HEAD 3

byte memory[SIZE];
static uint16 arrays_end, strings_begin;

uint16 word_at(uint16 address) {
    return (uint16)(memory[address] | memory[address + 1] << 8);
}

void set_word(uint16 address, uint16 value) {
    memory[address] = (byte)value;
    memory[address + 1] = (byte)(value >> 8);
}

void clear_variables(void) {
    fill(memory, 0, PROGRAM);
    arrays_end = program_end;
    strings_begin = SIZE;
}

/* Moves bytes up by so many places. */
static void move_up(uint16 from, uint16 end, uint16 by) {
    while (end > from) {
        end--;
        memory[end + by] = memory[end];
    }
}

/* Brings the strings that are in use together at the end of the memory: down first, and then all of them up. */
static void compact(void) {
    uint16 from, to = strings_begin, gap;
    for (from = strings_begin; from < SIZE;) {
        uint16 size = (uint16)(memory[from] + STRING_HEAD), owner = word_at((uint16)(from + 1));
        if (word_at(owner) == from) {
            copy(memory + to, memory + from, size);
            set_word(owner, to);
            to = (uint16)(to + size);
        }
        from = (uint16)(from + size);
    }
    gap = (uint16)(SIZE - to);
    move_up(strings_begin, to, gap);
    strings_begin = (uint16)(strings_begin + gap);
    for (from = strings_begin; from < SIZE; from = (uint16)(from + memory[from] + STRING_HEAD))
        set_word(word_at((uint16)(from + 1)), from);
}

/* Whether there is room for so many bytes; a fault if there isn't. */
static int16 has_room(uint16 bytes) {
    if (strings_begin - arrays_end >= bytes) return 1;
    compact();
    if (strings_begin - arrays_end >= bytes) return 1;
    fail("The memory is full", "Use smaller arrays and shorter strings");
    return 0;
}

uint16 free_bytes(void) {
    compact();
    return (uint16)(strings_begin - arrays_end);
}

/* Stores what is on the pool from START on. */
void store_string(uint16 place, uint16 start) {
    uint16 length = (uint16)(pool_end - start);
    pool_end = start;
    if (!length) {
        set_word(place, 0);
        return;
    }
    if (!has_room((uint16)(length + STRING_HEAD))) return;
    strings_begin = (uint16)(strings_begin - length - STRING_HEAD);
    memory[strings_begin] = (byte)length;
    set_word((uint16)(strings_begin + 1), place);
    copy(memory + strings_begin + STRING_HEAD, pool + start, length);
    set_word(place, strings_begin);
}

static uint16 code(int16 name, int16 is_string) {
    return (uint16)(2 * name + is_string);
}

/* The array of a name, or 0. */
static uint16 array(int16 name, int16 is_string) {
    uint16 at_array;
    for (at_array = program_end; at_array < arrays_end; at_array = (uint16)(at_array + word_at((uint16)(at_array + 2))))
        if (word_at(at_array) == code(name, is_string)) return at_array;
    return 0;
}

void dimension(int16 name, int16 is_string, int16 first, int16 second) {
    uint16 bytes;
    int32 elements = (int32)(first + 1) * (second < 0 ? 1 : second + 1);
    if (array(name, is_string)) {
        fail("This array has its DIM already", "Write each DIM once, at the program's beginning");
        return;
    }
    if (first < 0 || second < -1 || elements > SIZE / 2) {
        fail("An array can't be so large", "Write DIM A(100) or DIM A(9,9)");
        return;
    }
    bytes = (uint16)(2 * (uint16)elements + ARRAY_HEAD);
    if (!has_room(bytes)) return;
    set_word(arrays_end, code(name, is_string));
    set_word((uint16)(arrays_end + 2), bytes);
    set_word((uint16)(arrays_end + 4), (uint16)first);
    set_word((uint16)(arrays_end + 6), (uint16)second);
    fill(memory + arrays_end + ARRAY_HEAD, 0, (uint16)(bytes - ARRAY_HEAD));
    arrays_end = (uint16)(arrays_end + bytes);
}

uint16 element(int16 name, int16 is_string, int16 first, int16 second) {
    uint16 found = array(name, is_string);
    int16 last, last_second;
    if (!found) {
        fail("This array has no DIM", "Write DIM A(10) first, which has the elements A(0) to A(10)");
        return 0;
    }
    last = (int16)word_at((uint16)(found + 4));
    last_second = (int16)word_at((uint16)(found + 6));
    if ((second < 0) != (last_second < 0) && second >= -1) {
        fail("DIM gave this array another count of indices", "Write A(I) after DIM A(9), and A(I,J) after DIM A(9,9)");
        return 0;
    }
    if (first < 0 || first > last || second > last_second || second < -1) {
        fail("The index is outside of the array", "Write an index from 0 to the one that DIM has");
        return 0;
    }
    return (uint16)(found + ARRAY_HEAD + 2 * (second < 0 ? first : first * (last_second + 1) + second));
}
