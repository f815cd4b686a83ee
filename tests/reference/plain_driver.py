"""A driver for generated studies with children, a script in shell, and what it says by a second reading of its rule."""
from parameters import sci_text

NAME = "run.sh"
SCRIPT = rb"""# A simulation: run.sh WORDS PARAMETERS RESULTS. It fails where a number of the point begins with 7, or has 33 or 66
# in it, each in another way. Else its values are those of the point, over and over, as many as there are responses. It
# reads either form by its lines.
while [ $# -gt 2 ]; do
    shift
done
line=0 point= left=
while read -r value _ _ fourth _; do
    [ "$value" != "{" ] || value=$fourth
    line=$((line + 1))
    if [ $line -eq 1 ]; then
        count=$value
    elif [ $line -le $((count + 1)) ]; then
        point="$point $value"
    else
        responses=$value
        break
    fi
done <"$1"
case $point in
*7.*) exit 1 ;;
*33*) responses=$((responses + 1)) ;;
*66*) left="fail " ;;
esac
while [ "$responses" -gt 0 ]; do
    for value in $point; do
        [ "$responses" -gt 0 ] || break
        left="$left $value" responses=$((responses - 1))
    done
done
echo "$left" >"$2"
"""


def said(study, row, point, attempt):
    """The values that the script leaves, or none where it fails."""
    texts, count = " ".join(map(sci_text, point)), len(study.responses.labels)
    if any(it in texts for it in ("7.", "33", "66")):
        return None
    return (point * count)[:count]
