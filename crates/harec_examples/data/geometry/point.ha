// The directory of a file names its module. Other modules may use what is exported.
export type point = struct {
	x: int,
	y: int,
};

export fn origin() point = point { x = 0, y = 0 };
