let x: u8 = 255; export fn main() void = {};
