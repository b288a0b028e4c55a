fn magnitude(n: int) int = if (n < 0) -n else n;

// How far it is along the streets of a town.
export fn distance(a: point, b: point) int = magnitude(a.x - b.x) + magnitude(a.y - b.y);
