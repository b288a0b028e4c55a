def a: int = b; def b: int = a;
