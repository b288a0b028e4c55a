// A list whose nodes lie on the heap. Memory may be refused, and the type of an allocation says so.
use rt;

type node = struct {
	value: int,
	next: nullable *node,
};

// Puts a value in front of a list.
fn push(list: nullable *node, value: int) (*node | rt::nomem) = alloc(node { value = value, next = list });

fn sum(list: nullable *node) int = match (list) {
case null => yield 0;
case let n: *node => yield n.value + sum(n.next);
};

// Gives all nodes back.
fn drop(list: nullable *node) void = match (list) {
case null => void;
case let n: *node =>
	drop(n.next);
	free(n);
};

export fn main() void = {
	let list: nullable *node = null;
	defer drop(list);
	for (let i = 1; i <= 4; i += 1) {
		match (push(list, i)) {
		case let n: *node => list = n;
		case rt::nomem => rt::exit(1);
		};
	};
	rt::exit(sum(list): u8);
};
