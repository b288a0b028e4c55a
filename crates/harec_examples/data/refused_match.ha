// Refused: a value of the union may be void, and no case says what comes of that.
fn describe(x: (int | str | void)) str = match (x) {
case int => yield "a number";
case str => yield "a text";
};

export fn main() void = void;
