use std::ops::{Index, IndexMut};

use bytesize::ByteSize;

#[derive(Debug, Clone)]
pub struct VirtualMemory<T> {
    memory_size: usize,
    segment_mask: usize,
    segment_shift: u32,
    default: T,
    data: Vec<Vec<T>>,
}

impl<T: Copy + Default> Index<usize> for VirtualMemory<T> {
    type Output = T;
    fn index(&self, index: usize) -> &Self::Output {
        let segment_index = index >> self.segment_shift;
        let segment_offset = index & self.segment_mask;
        if self.data[segment_index].is_empty() {
            return &self.default;
        }
        Index::index(&self.data[segment_index], segment_offset)
    }
}

impl<T: Copy + Default> IndexMut<usize> for VirtualMemory<T> {
    fn index_mut(&mut self, index: usize) -> &mut Self::Output {
        let segment_index = index >> self.segment_shift;
        let segment_offset = index & self.segment_mask;
        if self.data[segment_index].is_empty() {
            self.data[segment_index] = vec![T::default(); self.segment_mask + 1];
        }
        IndexMut::index_mut(&mut self.data[segment_index], segment_offset)
    }
}

impl<T: Copy + Default> VirtualMemory<T> {
    pub fn new(memory_size: usize, segment_size: usize) -> Self {
        assert!(
            memory_size % segment_size == 0,
            "memory size must be multiple of segment size"
        );
        assert!(
            segment_size.is_power_of_two(),
            "segment size must be a power of two"
        );
        let segment_mask = segment_size - 1;
        let segment_shift = segment_size.trailing_zeros();
        let segments = memory_size / segment_size;
        Self {
            memory_size,
            segment_mask,
            segment_shift,
            default: T::default(),
            data: vec![[].to_vec(); segments],
        }
    }

    /// Returns an iterator over values in mapped memory segments.
    ///
    /// Note that the iterator does not cover un-mapped segments (i.e. segments that have not been
    /// written to before). This essentially skips over segments that would exclusively contain
    /// [`T::default()`] values. It also means that iteration likely yields fewer elements than
    /// calls of [`size()`] report.
    pub fn iter(&self) -> impl Iterator<Item = &T> {
        // oracle: stand-in, memory is flat: un-mapped words are covered too, as T::default(), so
        // oracle: that word m has number m (the original skips un-mapped segments, as said above)
        self.data.iter().flat_map(move |x| {
            (0..=self.segment_mask).map(move |i| x.get(i).unwrap_or(&self.default))
        })
    }

    pub fn size(&self) -> usize {
        self.memory_size
    }

    pub fn allocated(&self) -> ByteSize {
        ByteSize::b(
            self.data
                .iter()
                .filter(|x| !x.is_empty())
                .fold(0, |acc, _| acc + (self.segment_mask as u64) + 1),
        )
    }
}

