// Stand-in for the merging of cliques: named in sparsity_pattern.rs, never run, since patterns are given.
use super::SuperNodeTree;

pub(crate) trait MergeStrategy {
    fn merge_cliques(&mut self, _tree: &mut SuperNodeTree) {
        panic!("the merging of cliques is no part of the reference")
    }
}

macro_rules! strategies {
    ($($name:ident)*) => {$(
        pub(crate) struct $name;
        impl $name {
            pub(crate) fn new() -> Self {
                $name
            }
        }
        impl MergeStrategy for $name {}
    )*};
}
strategies!(NoMergeStrategy ParentChildMergeStrategy CliqueGraphMergeStrategy);
