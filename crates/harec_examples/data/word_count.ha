// Counts how often each word of the input occurs, and prints the words in the order of their first use.
use rt;

type entry = struct {
	word: []u8,
	count: size,
};

fn same(a: []u8, b: []u8) bool = {
	if (len(a) != len(b)) return false;
	for (let i = 0z; i < len(a); i += 1) {
		if (a[i] != b[i]) return false;
	};
	return true;
};

fn find(list: []entry, word: []u8) (size | void) = {
	for (let i = 0z; i < len(list); i += 1) {
		if (same(list[i].word, word)) return i;
	};
};

fn add(list: *[]entry, word: []u8) void = match (find(*list, word)) {
case let i: size => list[i].count += 1;
case void => append(*list, entry { word = alloc(word, len(word))!, count = 1 })!;
};

fn number(n: size) void = {
	if (n >= 10) number(n / 10);
	let d: [1]u8 = [48 + (n % 10): u8];
	rt::write(d);
};

export fn main() void = {
	let buf: [4096]u8 = [0...];
	let list: []entry = [];
	defer free(list);
	let n = rt::read(buf);
	let start = 0z;
	for (let i = 0z; i <= n; i += 1) {
		if (i < n && buf[i] != 32 && buf[i] != 10) continue;
		if (start < i) add(&list, buf[start..i]);
		start = i + 1;
	};
	for (let e .. list) {
		rt::write(e.word);
		rt::puts(" ");
		number(e.count);
		rt::puts("\n");
		free(e.word);
	};
};
