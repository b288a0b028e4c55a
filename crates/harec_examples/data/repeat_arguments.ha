use rt;
export fn main() void = {
	let i = 0z;
	for (i < rt::nargs()) {
		rt::puts("ab");
		i = i + 1z;
	};
	rt::exit((i * 2z): u8);
};
