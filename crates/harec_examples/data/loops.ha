// Loops with labels, loops over places, and what is deferred to the end of a block.
use rt;

// Where the first of two numbers stands that have this sum.
fn pair(numbers: []int, sum: int) (size | void) = {
	for :next (let i = 0z; i < len(numbers); i += 1) {
		for (let j = i + 1; j < len(numbers); j += 1) {
			if (numbers[i] > sum) continue :next;
			if (numbers[i] + numbers[j] == sum) return i;
		};
	};
};

fn double(numbers: []int) void = {
	for (let n &.. numbers) {
		*n *= 2;
	};
};

export fn main() void = {
	rt::puts("begin\n");
	defer rt::puts("end\n");
	let numbers: [4]int = [1, 2, 3, 4];
	double(numbers);
	match (pair(numbers, 10)) {
	case let at: size => rt::exit(at: u8);
	case void => rt::puts("no such pair\n");
	};
};
