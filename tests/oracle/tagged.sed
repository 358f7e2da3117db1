# Makes of the Rust's triangle the function closest_point alone, its text as it stands but for this: each return also tells the number of
# the part that it stands for. tests/compare runs it (sed -n -f) and tests that all seven were found.
1 i //! The Rust's closest_point, each return with its part: tests/oracle/tagged.sed made this of the Rust's text.\
use shark::request::P;\
\
pub struct Tagged {\
    pub a: P,\
    pub b: P,\
    pub c: P,\
}\
\
impl Tagged {
$ a }
/fn closest_point(&self/,/^    }$/ {
    s/fn closest_point(&self, point: &Vec3<TScalar>) -> Vec3<TScalar>/pub fn closest_point(\&self, point: \&P) -> (P, u32)/
    s/: TScalar = TScalar::zero()/: f32 = 0.0/
    s/TScalar::one()/1.0/
    s/return self\.a;/return (self.a, 1);/
    s/return self\.b;/return (self.b, 2);/
    s/return self\.c;/return (self.c, 3);/
    s/return self\.a + ab\.scale(v);/return (self.a + ab.scale(v), 4);/
    s/return self\.a + ac\.scale(w);/return (self.a + ac.scale(w), 5);/
    s/return self\.b + (self\.c - self\.b)\.scale(w);/return (self.b + (self.c - self.b).scale(w), 6);/
    s/^        self\.a + ab \* v + ac \* w$/        (self.a + ab * v + ac * w, 0)/
    p
}
