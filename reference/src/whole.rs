//! The rule of before paper 3 of document 02, to tell what the paper changed.

use crate::reach::Watch;
use crate::rules::Rule;

/// Sees nothing, and has the rule of before: rows are bounded over whole neighborhoods.
pub struct WholeNeighborhoods;

impl Watch for WholeNeighborhoods {
    const RULE: Rule = Rule::Whole;
}
