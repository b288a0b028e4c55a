// A value of a union is one of its members, and `match` asks which.
use rt;

type circle = struct {
	radius: int,
};
type rectangle = struct {
	width: int,
	height: int,
};
type shape = (circle | rectangle);

// The area, with 3 for pi.
fn area(s: shape) int = match (s) {
case let c: circle => yield 3 * c.radius * c.radius;
case let r: rectangle => yield r.width * r.height;
};

export fn main() void = {
	let shapes: [3]shape = [
		circle { radius = 2 },
		rectangle { width = 3, height = 4 },
		circle { radius = 1 },
	];
	let total = 0;
	for (let s .. shapes) {
		rt::puts(if (s is circle) "o" else "#");
		total += area(s);
	};
	rt::exit(total: u8);
};
