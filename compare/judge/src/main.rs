fn main() {
    ggrs::judge::main();
}
