# What the scripts share that look at the index which `siuwbren` leaves with -u. Each sources it after lib.sh.
# shellcheck shell=bash
# shellcheck disable=SC2154 # lib.sh and the scripts set what stands here

# index_of FOLDER: the path of the index
index_of() {
  (cd "$1" && git rev-parse --path-format=absolute --git-path index)
}

# told FOLDER: what the index tells of the files, by their paths
told() {
  git -C "$1" ls-files --debug
}

# looked_at NAME FOLDER: the index tells of each file what git tells after a look at it, and git has nothing to say
looked_at() {
  local name=$1 folder=$2 index
  git -C "$folder" diff-files >"$work/said" 2>&1
  [ ! -s "$work/said" ] || fail "$name: git finds: $(head -n 5 "$work/said")"
  told "$folder" >"$work/told.ours"
  index=$(index_of "$folder")
  cp "$index" "$work/index.looked"
  (
    # shellcheck disable=SC2030 # for this shell alone
    export GIT_INDEX_FILE=$work/index.looked
    git -C "$folder" ls-files --stage -z >"$work/entries"
    rm "$work/index.looked"
    git -C "$folder" update-index -z --index-info <"$work/entries"
    git -C "$folder" update-index --refresh
  ) >"$work/said" 2>&1 || fail "$name: git makes no index: $(head -n 3 "$work/said")"
  GIT_INDEX_FILE=$work/index.looked told "$folder" >"$work/told.theirs"
  diff "$work/told.theirs" "$work/told.ours" >"$work/differs" || fail "$name: git tells otherwise: $(head -n 6 "$work/differs")"
  git -C "$folder" update-index --refresh >"$work/said" 2>&1 || fail "$name: update-index --refresh ends with $?"
  git -C "$folder" fsck >>"$work/said" 2>&1 || fail "$name: git fsck ends with $?"
  [ ! -s "$work/said" ] || fail "$name: git says: $(head -n 3 "$work/said")"
}

# same_as_git NAME FOLDER: the same, and the worktree is as the commit has it
same_as_git() {
  git -C "$2" --no-optional-locks status --porcelain=v2 >"$work/said" 2>&1
  [ ! -s "$work/said" ] || fail "$1: git status finds: $(head -n 5 "$work/said")"
  looked_at "$1" "$2"
}

# version_in INDEX: the version of an index
version_in() {
  od -An -tu1 -j 7 -N 1 "$1" | tr -d ' '
}

# trees_in INDEX: the extension TREE of an index, in hex, or nothing if it has none
trees_in() {
  python3 - "$1" <<'END'
import sys
index = open(sys.argv[1], 'rb').read()
number = lambda at, size: int.from_bytes(index[at:at + size], 'big')
at = 12
for _ in range(number(8, 4)):
    head = 64 if number(at + 60, 2) & 0x4000 else 62
    if number(4, 4) == 4:
        digits = at + head
        while index[digits] > 127:
            digits += 1
        at = index.index(0, digits + 1) + 1
        continue
    end = index.index(0, at + head)
    at += (end - at) // 8 * 8 + 8
while at < len(index) - 20:
    end = at + 8 + number(at + 4, 4)
    if index[at:at + 4] == b'TREE':
        print(index[at:end].hex())
    at = end
END
}
