use super::{at_line, no_line, sequence, zeroed, BYTE};
use second::cases::EXAMPLE;
use second::operations::keep;
use second::read::read;

#[test]
fn keep_writes_and_refuses() {
    let call = |text: &str, length: usize| {
        let mut output = vec![BYTE; length];
        let told = keep(text.as_bytes(), &mut output);
        (told, output)
    };
    for length in [8728, 8729, 9000] {
        let (told, output) = call(EXAMPLE, length);
        let job = read(EXAMPLE.as_bytes()).unwrap();
        let (bytes, kept) = second::keep::keep(&job).unwrap();
        assert_eq!(told, Ok(kept));
        assert_eq!(output[..8728], bytes);
        assert!(output[8728..].iter().all(|byte| *byte == BYTE));

        let (told, output) = call(&sequence(63, &["a", "a?"]), length);
        assert_eq!(told, Err(no_line(9)));
        assert!(zeroed(&output, 8728, BYTE));
        let (told, output) = call(&sequence(21, &["a", "a?"]), length);
        assert_eq!(told, Err(no_line(10)));
        assert!(zeroed(&output, 8728, BYTE));
        let (told, output) = call("label a\nlabel a\n", length);
        assert_eq!(told, Err(at_line(3, 2)));
        assert!(zeroed(&output, 0, BYTE));
    }
    let (told, output) = call("label a\nlabel a\n", 8727);
    assert_eq!(told, Err(no_line(8)));
    assert!(zeroed(&output, 0, BYTE));
}
