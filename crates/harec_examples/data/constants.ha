// What is known before a program runs: defs, sizes and tables.
use rt;

type day = u8;

def MONDAY: day = 0;
def SUNDAY: day = MONDAY + 6;
def DAYS: size = 7;
def BITS: size = size(u64) * 8;

const hours: [DAYS]u8 = [8, 8, 8, 8, 6, 0...];

fn name(d: day) str = switch (d) {
case MONDAY => yield "monday";
case SUNDAY - 1, SUNDAY => yield "weekend";
case => yield "another day";
};

fn week() uint = {
	let sum = 0u;
	for (let h .. hours) {
		sum += h: uint;
	};
	return sum;
};

export fn main() void = {
	rt::puts(name(SUNDAY));
	rt::puts("\n");
	assert(BITS == 64);
	rt::exit(week(): u8);
};
