// Sorts numbers where they lie: a slice is a window on an array.
use rt;

fn swap(a: *int, b: *int) void = {
	let t = *a;
	*a = *b;
	*b = t;
};

fn sort(numbers: []int) void = {
	for (let i = 1z; i < len(numbers); i += 1) {
		for (let j = i; j > 0 && numbers[j - 1] > numbers[j]; j -= 1) {
			swap(&numbers[j - 1], &numbers[j]);
		};
	};
};

export fn main() void = {
	let numbers: [5]int = [31, 4, 15, 9, 2];
	sort(numbers);
	assert(numbers[0] == 2 && numbers[4] == 31, "not sorted");
	rt::exit(numbers[2]: u8);
};
