use rows::m;
export fn main() void = m::f();
