//! A page of pixels to draw on, and its rows as changes.

pub const WIDTH: usize = 1728;

#[derive(Clone)]
pub struct Canvas(Vec<bool>);

impl Canvas {
    pub fn white(height: usize) -> Self {
        Canvas(vec![false; WIDTH * height])
    }

    /// Each pixel by its place.
    #[cfg(any(feature = "linked", test))]
    pub fn of(height: usize, mut black: impl FnMut(usize, usize) -> bool) -> Self {
        Canvas((0..WIDTH * height).map(|at| black(at % WIDTH, at / WIDTH)).collect())
    }

    fn height(&self) -> usize {
        self.0.len() / WIDTH
    }

    /// The colour at a place; off the page it is white.
    #[cfg(any(feature = "linked", test))]
    pub fn is_black(&self, x: i64, y: i64) -> bool {
        let inside = (0..WIDTH as i64).contains(&x) && (0..self.height() as i64).contains(&y);
        inside && self.0[y as usize * WIDTH + x as usize]
    }

    /// A box of black pixels; what lies off the page is left out.
    pub fn fill(&mut self, x: usize, y: usize, width: usize, height: usize) {
        for row in y.min(self.height())..(y + height).min(self.height()) {
            self.0[row * WIDTH..][x.min(WIDTH)..(x + width).min(WIDTH)].fill(true);
        }
    }

    /// White for black in a box, and black for white.
    #[cfg(feature = "linked")]
    pub fn invert(&mut self, x: usize, y: usize, width: usize, height: usize) {
        for row in y.min(self.height())..(y + height).min(self.height()) {
            self.0[row * WIDTH..][x.min(WIDTH)..(x + width).min(WIDTH)].iter_mut().for_each(|pixel| *pixel = !*pixel);
        }
    }

    /// The edge of a box, so many pixels thick.
    pub fn frame(&mut self, x: usize, y: usize, width: usize, height: usize, thick: usize) {
        self.fill(x, y, width, thick);
        self.fill(x, y + height - thick, width, thick);
        self.fill(x, y, thick, height);
        self.fill(x + width - thick, y, thick, height);
    }

    /// A line from one point to another, drawn with a round pen.
    #[cfg(any(feature = "linked", test))]
    pub fn stroke(&mut self, from: (f64, f64), to: (f64, f64), pen: f64) {
        let along = (to.0 - from.0, to.1 - from.1);
        let square = (along.0 * along.0 + along.1 * along.1).max(1e-9);
        let radius = pen / 2.0;
        let low = |a: f64, b: f64| (a.min(b) - radius).max(0.0) as usize;
        let high = |a: f64, b: f64, most: usize| ((a.max(b) + radius).max(0.0) as usize + 1).min(most);
        for y in low(from.1, to.1)..high(from.1, to.1, self.height()) {
            for x in low(from.0, to.0)..high(from.0, to.0, WIDTH) {
                let off = (x as f64 - from.0, y as f64 - from.1);
                let part = ((off.0 * along.0 + off.1 * along.1) / square).clamp(0.0, 1.0);
                let (dx, dy) = (off.0 - part * along.0, off.1 - part * along.1);
                if dx * dx + dy * dy <= radius * radius {
                    self.0[y * WIDTH + x] = true;
                }
            }
        }
    }

    /// Each row's changes of colour, from white.
    pub fn rows(&self) -> Vec<Vec<u32>> {
        self.0.chunks(WIDTH).map(changes).collect()
    }
}

fn changes(row: &[bool]) -> Vec<u32> {
    let before = std::iter::once(&false).chain(row);
    before.zip(row).enumerate().filter(|(_, (before, now))| before != now).map(|(at, _)| at as u32).collect()
}
