fn main() {
    text::prepare();
}
