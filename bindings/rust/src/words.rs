//! Settings, of a bit for each wire, and words, of a bit for each setting.

/// The words of up to 64 settings, as [`run64`](crate::run64) takes them: bit j of word i is bit i of
/// setting j, and 0 where there is no setting j.
///
/// ```
/// use fidrovelj::to_words;
///
/// assert_eq!(to_words(&[[1, 0], [1, 1], [0, 1]]), [0b011, 0b110]);
/// ```
///
/// # Panics
///
/// Where there are more than 64 settings, they are not all of one length, or an entry is not 0 or 1.
pub fn to_words<S: AsRef<[u8]>>(settings: &[S]) -> Vec<u64> {
    assert!(settings.len() <= 64, "a word has room for 64 settings");
    let mut words = vec![0; settings.first().map_or(0, |first| first.as_ref().len())];
    for (j, setting) in settings.iter().enumerate() {
        let setting = setting.as_ref();
        assert_eq!(setting.len(), words.len(), "settings are of one length");
        for (word, &bit) in words.iter_mut().zip(setting) {
            assert!(bit <= 1, "a bit is 0 or 1");
            *word |= u64::from(bit) << j;
        }
    }
    words
}

/// The first `count` settings of words: bit i of setting j is bit j of word i.
///
/// ```
/// use fidrovelj::from_words;
///
/// assert_eq!(from_words(&[0b011, 0b110], 3), [[1, 0], [1, 1], [0, 1]]);
/// ```
///
/// # Panics
///
/// Where `count` is more than 64.
pub fn from_words(words: &[u64], count: usize) -> Vec<Vec<u8>> {
    assert!(count <= 64, "a word has room for 64 settings");
    (0..count).map(|j| words.iter().map(|word| (word >> j & 1) as u8).collect()).collect()
}
