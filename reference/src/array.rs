//! Arrays, shapes and places. 01: "The array".

/// "The limits 8 and 16,384 belong to the shape."
pub const LARGEST_RANK: usize = 8;
pub const LARGEST_COUNT: i64 = 16_384;

/// The rank is the number of lengths; the elements stand row by row.
#[derive(Clone, Debug, PartialEq)]
pub struct Array {
    pub lengths: Vec<i64>,
    pub elements: Vec<i32>,
}

impl Array {
    pub fn rank(&self) -> usize {
        self.lengths.len()
    }

    /// "Rank 0 is a scalar."
    pub fn is_scalar(&self) -> bool {
        self.rank() == 0
    }

    /// "List means rank 0 or 1."
    pub fn is_list(&self) -> bool {
        self.rank() <= 1
    }

    pub fn count(&self) -> i64 {
        self.elements.len() as i64
    }

    /// The element at a place. "The order is row by row", last axis fastest.
    pub fn at(&self, place: &[i64]) -> i32 {
        assert_eq!(place.len(), self.rank());
        let mut index = 0;
        for axis in 0..self.rank() {
            assert!(0 <= place[axis] && place[axis] < self.lengths[axis]);
            index = index * self.lengths[axis] + place[axis];
        }
        self.elements[index as usize]
    }
}

/// "The count is the product of the lengths, 1 for rank 0."
/// For lengths and a rank within the limits (8 factors of at most 2^14 each).
pub fn count(lengths: &[i64]) -> i128 {
    lengths.iter().map(|&length| length as i128).product()
}

/// The shape rule: "The rank is 0 to 8 [...] A length is 0 to 16,384. The count
/// is [...] at most 16,384."
pub fn is_good_shape(lengths: &[i64]) -> bool {
    lengths.len() <= LARGEST_RANK
        && lengths.iter().all(|length| (0..=LARGEST_COUNT).contains(length))
        && count(lengths) <= LARGEST_COUNT as i128
}

/// All places of a shape, row by row. "A place is one position for each axis";
/// "last axis fastest".
pub fn places(lengths: &[i64]) -> Vec<Vec<i64>> {
    if lengths.contains(&0) {
        return Vec::new();
    }
    let mut places = vec![Vec::new()];
    for &length in lengths {
        let mut longer_places = Vec::new();
        for place in &places {
            for position in 0..length {
                let mut longer_place = place.clone();
                longer_place.push(position);
                longer_places.push(longer_place);
            }
        }
        places = longer_places;
    }
    places
}
