// A program of three files: harec check modules.ha geometry/point.ha geometry/distance.ha
use geometry;
use geometry::{point};
use rt;

export fn main() void = {
	let end = point { x = 3, y = -4 };
	rt::exit(geometry::distance(geometry::origin(), end): u8);
};
