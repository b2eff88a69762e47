# How many milliseconds a command takes; what it prints goes to the file "$build/printed". Scripts of bench/ read this.
milliseconds() { # a command
    local begin end
    begin=$(date +%s%N)
    "$@" >"$build/printed"
    end=$(date +%s%N)
    echo $(((end - begin) / 1000000))
}
