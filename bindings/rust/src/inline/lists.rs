//! Walks over the results for many contents.

/// Makes a walk over a list from both ends, and one by reference, of what its `get` returns.
macro_rules! walks {
    ($(#[$doc:meta])* $walk:ident over $list:ident gives $item:ty) => {
        $(#[$doc])*
        #[derive(Clone, Debug)]
        pub struct $walk<'a> {
            list: &'a $list,
            left: std::ops::Range<usize>,
        }

        impl $list {
            /// How many there are.
            #[must_use]
            pub fn len(&self) -> usize {
                self.ends.len()
            }

            /// Whether there are none.
            #[must_use]
            pub fn is_empty(&self) -> bool {
                self.ends.is_empty()
            }

            /// They one after another.
            #[must_use]
            pub fn iter(&self) -> $walk<'_> {
                $walk {
                    list: self,
                    left: 0..self.len(),
                }
            }
        }

        impl<'a> Iterator for $walk<'a> {
            type Item = $item;

            fn next(&mut self) -> Option<$item> {
                self.list.get(self.left.next()?)
            }

            fn size_hint(&self) -> (usize, Option<usize>) {
                self.left.size_hint()
            }
        }

        impl<'a> DoubleEndedIterator for $walk<'a> {
            fn next_back(&mut self) -> Option<$item> {
                self.list.get(self.left.next_back()?)
            }
        }

        impl ExactSizeIterator for $walk<'_> {}

        impl std::iter::FusedIterator for $walk<'_> {}

        impl<'a> IntoIterator for &'a $list {
            type Item = $item;
            type IntoIter = $walk<'a>;

            fn into_iter(self) -> $walk<'a> {
                self.iter()
            }
        }
    };
}

pub(crate) use walks;
