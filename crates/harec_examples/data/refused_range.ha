// Refused: the sum is 256, and no u8.
let x: u8 = 255 + 1;

export fn main() void = void;
