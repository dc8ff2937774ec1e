# What the programs of bin/ answer without being built, from lib/PROGRAM.txt: its first line is the version, and the rest the help.

# answer_word PROGRAM WORD: answers `--help`, `-h` and `--version`, and ends.
answer_word() {
    case $2 in
    --help | -h) tail -n +3 "$top/bin/lib/$1.txt" ;;
    --version) head -n 1 "$top/bin/lib/$1.txt" ;;
    *) return ;;
    esac
    exit 0
}
