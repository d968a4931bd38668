// A library whose calls break what they may do with what they are lent, each in its own way: the driver that is
// linked with it must end at each (tests/all/driver.rs).

typedef unsigned char byte;
typedef unsigned int u32;
typedef unsigned long u64;

// Writes behind the numbers.
u64 nephinor_read_block(const byte *bytes, u64 size, u32 *numbers, u64 count) {
    (void)bytes, (void)size;
    numbers[count]++;
    return 0;
}

// Writes in front of the room.
u64 nephinor_write_block(const u32 *numbers, u64 count, byte *room, u64 size) {
    (void)numbers, (void)count, (void)size;
    room[-1]++;
    return 0;
}

// Writes the block, which it may only read.
u64 nephinor_run_block(byte *bytes, u64 size, u32 *variables, u64 count, u32 *cells, u64 cell_count) {
    (void)size, (void)variables, (void)count, (void)cells, (void)cell_count;
    bytes[0]++;
    return 0;
}

// Copies the byte in front of the variables to the place behind the list.
u64 nephinor_run_list(const byte *block, u64 block_size, byte *list, u64 size, u32 *variables, u64 count, u32 *cells,
                      u64 cell_count) {
    (void)block, (void)block_size, (void)count, (void)cells, (void)cell_count;
    list[size] = ((byte *)variables)[-1];
    return 0;
}

// Writes behind the room.
u64 nephinor_make_list(const byte *bytes, u64 size, byte *room, u64 room_size) {
    (void)bytes, (void)size;
    room[room_size]++;
    return 0;
}
