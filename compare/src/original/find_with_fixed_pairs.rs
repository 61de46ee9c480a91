/// The private `find_with_pairs`.
pub fn find_with_fixed_pairs<'a>(
    source: &'a Model,
    target: &'a Model,
    pairs: &[(Element, Element)],
    fuel: Fuel,
) -> Result<Option<ModelHom<'a>>, Error> {
    find_with_pairs(source, target, pairs, fuel)
}
