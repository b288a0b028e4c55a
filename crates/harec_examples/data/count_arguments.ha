use rt;
export fn main() void = rt::exit((rt::nargs() * 3z + 1z): u8);
