#!/bin/sh
# A member by curl: posts a note to everybody and one to a friend alone, reads each back as the
# member and as nobody, and follows the friend.
#
#     FEDI_KEY=DIGITS examples/curl.sh http://127.0.0.1:8765 ana ben
#
# FEDI_KEY is the key of ana, as `add-actor` printed it. It prints a line for each post, with the id
# of the activity, and for each reading, with the status and the content.
set -eu
url=$1 name=$2 friend=$3

# curl with the member's key, which comes by a pipe, since others can see the words of a command.
as_member() {
    printf 'Authorization: Bearer %s\n' "$FEDI_KEY" | curl -sS -m 30 -H @- "$@"
}

as_nobody() {
    curl -sS -m 30 "$@"
}

# Posts this to the member's outbox, and prints the id of the activity, which `Location` has.
post() {
    as_member -D - -o /dev/null -H 'Content-Type: application/json' -d "$1" \
        "$url/users/$name/outbox" | tr -d '\r' | sed -n 's/^[Ll]ocation: //p'
}

# Reads this path by `as_member` or `as_nobody`, and prints the status and the content or the error.
show() {
    reply=$($1 -w '\n%{http_code}' "$url$2")
    text=$(printf '%s' "$reply" | sed -nE 's/.*"(content|error)":"([^"]*)".*/\2/p')
    echo "$1 $(printf '%s' "$reply" | tail -n 1) $text"
}

# Posts a note with this content to this recipient, and reads it as the member and as nobody.
post_note() {
    id=$(post '{"type":"Note","content":"'"$1"'","to":["'"$2"'"]}')
    echo "Note ${id:-refused}"
    # The activity a/N made the object o/N.
    show as_member "/users/$name/o/${id##*/}"
    show as_nobody "/users/$name/o/${id##*/}"
}

friend=$(as_nobody "$url/users/$friend" | sed 's/.*"id":"\([^"]*\)".*/\1/')
post_note 'Good morning' Public
post_note 'For you alone' "$friend"
id=$(post '{"type":"Follow","object":"'"$friend"'"}')
echo "Follow ${id:-refused}"
