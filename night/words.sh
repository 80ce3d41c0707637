# Sourced by what stands in bin/: how a folder is named, and what a program's words mean. It stands in lib/ of what is installed.
# Each function answers in REPLY, or by its status, so that no shell is started for it.

# A name as it may be typed again, on one line whatever is in it.
shown() { # NAME
    REPLY=$1
    [[ ! $1 =~ ^[A-Za-z0-9_./+,:@%=-]+$ ]] || return 0
    REPLY="'$1'"
    [[ ! $1 =~ [[:cntrl:]\'] ]] || REPLY=${1@Q}
}

# A folder's path, also where its name alone would be taken for something else, as - is.
path_of() { # FOLDER
    REPLY=$1
    [[ $1 == /* || -z $1 ]] || REPLY=./$1
}

# Several lines as one.
joined() { # LINES
    REPLY=${1//$'\n'/; }
}

# Why a command failed, from what it said: the last part of its line, as "No space left on device".
reason() { # LINES
    REPLY=${1##*$'\n'}
    REPLY=${REPLY##*: }
    REPLY=${REPLY:-no reason was told}
}

# Whether a program said a number of the table, and nothing stood in its way: a file that is too long is an answer, one that cannot be read is not.
is_answer() { # LINES
    local form=$'^([^\n]* is too long\n)*[0-9]+( at record [0-9]+)?: [^\n]*$'
    [[ $1 =~ $form ]]
}

# Whether a folder has all that a cart's has but the route; if not, what it lacks.
is_carts() { # PATH
    local file
    for file in floor.vtx floor.ply question; do
        REPLY="there is no file $file in this folder"
        [ -f "$1/$file" ] || return
        REPLY="the file $file may not be read"
        [ -r "$1/$file" ] || return
    done
}

# Set by the last line alone, so that a part of this file is not taken for it.
words_are_whole=yes
