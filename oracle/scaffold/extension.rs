// The one struct of all extensions and its traits.

use crate::binomial::{vector_add, vector_sub};
use crate::ring::{Algebra, ExtensionField, Field};
use core::iter;
use core::marker::PhantomData;

upstream!("shapes.rs");

// As upstream, without its serialisation.
#[derive(Copy, Clone, Eq, PartialEq, Debug)]
pub struct ExtField<F, const D: usize, Shape, A = F> {
    pub(crate) value: [A; D],

    _phantom: PhantomData<(F, Shape)>,
}

upstream!("ext_new.rs");

upstream!("ext_from.rs");

upstream!("extension_algebra.rs");

upstream!("binomially_extendable.rs");

upstream!("has_frobenius.rs");

upstream!("trinomially_extendable.rs");
