fn f(x: (int | str | !void)) void = match (x) { case int => void; case str => void; };
export fn main() void = void;
