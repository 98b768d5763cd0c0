#!/bin/sh
# Encodes the example of silence and shows it to ordinary players, where they are installed. It needs the
# built program, so it runs after the gate. A player that is missing is skipped.

here=$(dirname -- "$(readlink -f -- "$0")")
stream=$(mktemp) || exit 1
trap 'rm -f "$stream"' EXIT

if ! "$here/../celt" encode --bytes 80 <"$here/silence.wav" >"$stream"; then
    echo 'players: the example is not encoded' >&2
    exit 1
fi

failed=0

# What a player says of the stream: the words after its name, and what must stand in its answer.
accepts() {
    player=$1
    wanted=$2
    shift 2
    if ! command -v "$player" >/dev/null; then
        echo "players: $player is not installed, skipped"
        return
    fi
    if said=$("$player" "$@" "$stream" 2>&1) && printf '%s\n' "$said" | grep -q -e "$wanted"; then
        echo "players: $player accepts the stream"
    else
        printf 'players: %s does not accept the stream:\n%s\n' "$player" "$said"
        failed=1
    fi
}

accepts opusinfo 'Playback length: 0m:01\.000s'
accepts ffprobe 'codec_name=opus' -v error -show_entries stream=codec_name,channels,duration

exit $failed
