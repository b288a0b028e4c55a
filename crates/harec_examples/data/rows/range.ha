let x: u8 = 255 + 1; export fn main() void = {};
