use rt;
export fn main() void = {
	let a: []u8 = alloc([65], 1);
};
