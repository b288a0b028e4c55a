use rt; export fn main() void = { let s: []u8 = []; append(s, 1); };
