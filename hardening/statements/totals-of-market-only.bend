# totals: nothing of the RC side
crates: engine
file: crates/yearbook/src/book/reading.rt
old: result ≡ totals_of (book_of self.now)
new: result.0 ≡ (totals_of (book_of self.now)).0
