// Writes its arguments, one on a line, and exits with their number.
use rt;

export fn main() void = {
	for (let i = 0z; i < rt::nargs(); i += 1) {
		rt::puts(rt::arg(i));
		rt::puts("\n");
	};
	rt::exit(rt::nargs(): u8);
};
