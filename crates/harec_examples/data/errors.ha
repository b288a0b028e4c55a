// Errors are values: a function gives a number or what went wrong, and its caller says what becomes of either.
use rt;

type empty = !void;
type no_digit = !u8;

// The number that decimal digits spell.
fn number(digits: []u8) (u32 | empty | no_digit) = {
	if (len(digits) == 0) return empty;
	let value = 0u32;
	for (let digit .. digits) {
		if (digit < 48 || digit > 57) return digit: no_digit;
		value = value * 10 + (digit - 48): u32;
	};
	return value;
};

// The sum of two such numbers. What went wrong first is handed on.
fn sum(a: []u8, b: []u8) (u32 | empty | no_digit) = number(a)? + number(b)?;

export fn main() void = {
	match (sum(rt::bytes("17"), rt::bytes("25"))) {
	case let n: u32 => rt::exit(n: u8);
	case empty => rt::puts("a number without digits\n");
	case no_digit => rt::puts("what is no digit\n");
	};
};
