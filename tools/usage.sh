# What `./cnitool` and `./try` answer at once, with nothing built. They name the checkout `top`, and pass on their words.
usage() {
    sed "s|COMMAND|./$(basename "$0")|" "$top/tools/usage.txt"
}

case ${1-} in
    -h | --help)
        usage
        exit 0
        ;;
    --version)
        echo "dalecanvas $(git -C "$top" describe --always --dirty 2>/dev/null || echo without a commit)"
        rt version
        exit 0
        ;;
    "")
        if [ $# = 0 ]; then
            usage >&2
            # as the program says it
            echo '{"error":"usage"}'
            exit 2
        fi
        ;;
esac
