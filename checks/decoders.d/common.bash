# What checks/decoders and checks/soak share: videos of several kinds, and their comparison with what decoders of others
# show. It is sourced, in a folder for its files, with `top` as the top of the checkout. HV_ENCODE may name another
# program than bin/hv_encode.
#
# A decoder that is not installed is skipped, and said so.

program=${HV_ENCODE-$top/bin/hv_encode}

libde265=
for name in libde265-dec265 dec265; do
    if command -v "$name" >found; then
        libde265=$name
        break
    fi
done

failed=0 compared=0

# Compares the pictures `decoded` with the expected ones; $1 is what made them, $2 what it said.
compare() {
    if [[ -s $2 ]]; then
        echo "$1: it warns:"
        cat "$2"
        failed=1
    elif cmp decoded expected; then
        echo "$1: same"
        compared=$((compared + 1))
    else
        echo "$1: the pictures differ"
        failed=1
    fi
}

with_ffmpeg() {
    rm -f decoded
    ffmpeg -nostdin -v warning -probesize 100000000 -f hevc -i stream -fps_mode passthrough \
        -f rawvideo -pix_fmt yuv420p decoded >said 2>&1 || echo "status $?" >>said
    compare "ffmpeg, $1" said
}

# What it prints for each picture isn't a warning; its status and the pictures are.
with_libde265() {
    rm -f decoded
    "$libde265" --quiet --output decoded stream >printed 2>&1 || {
        cat printed
        echo "status $?"
    } >said
    grep -i -E 'warning|error' printed >>said || true
    compare "libde265, $1" said
}

# Encodes what is on `video` by the words, and has that decoded; $1 says what it is.
try_words() {
    local name=$1
    shift
    "$program" "$@" <video >stream
    "$program" "$@" --emit recon <video >expected
    decode "$name"
}

# Has the stream decoded by both.
decode() {
    : >said
    if command -v ffmpeg >found; then
        with_ffmpeg "$1"
    fi
    : >said
    if [[ -n $libde265 ]]; then
        with_libde265 "$1"
    fi
}

# Waves and a grid that move by parts of a sample from picture to picture, as ffmpeg's filter `geq` draws them.
panned() {
    local x='(X+1.25*N)' y='(Y+0.75*N)'
    local waves="60*sin($x/7)*cos($y/9)+25*sin(($x+$y)/3)"
    echo "lum='128+$waves+if(lt(mod($x,24),3),40,0)':cb='128+50*sin($x/11)':cr='128+50*cos($y/13)'"
}

# Makes a video of this kind with so many pictures of a size. What moves is panned by parts of a sample (`pan`), zoomed
# (`zoom`), or cut to something else in its middle (`cut`); a still doesn't move.
make_video() {
    local kind=$1 size=$2 pictures=$3 source
    local width=${size%x*} height=${size#*x} drawn="nullsrc=size=$size,format=yuv420p,geq=interpolation=n"
    case $kind in
    noise)
        head -c $((pictures * width * height * 3 / 2)) /dev/urandom >video
        return
        ;;
    cut)
        make_video pan "$size" $((pictures / 2))
        mv video before
        make_video testsrc2 "$size" $((pictures - pictures / 2))
        cat before video >both
        mv both video
        return
        ;;
    pan) source=$drawn:$(panned) ;;
    zoom) source="mandelbrot=size=$size" ;;
    still) source="smptebars=size=$size" ;;
    ramps) source=$drawn:"lum='mod(3*X+2*Y+9*N,256)':cb='mod(X+5*Y,256)':cr='mod(7*X+N,256)'" ;;
    flat) source="color=c=0x4080c0:size=$size" ;;
    edges)
        source=$drawn:"lum='if(gt(3*X,W+2*N),if(gt(X,Y),220,90),16)'"
        source+=":cb='if(gt(Y,X),200,60)':cr='if(gt(2*X,W),30,128)'"
        ;;
    *) source="$kind=size=$size" ;;
    esac
    ffmpeg -nostdin -v error -f lavfi -i "$source" -frames:v "$pictures" -f rawvideo -pix_fmt yuv420p -y video
}

# Says which decoders aren't there.
say_what_is_skipped() {
    command -v ffmpeg >found || echo "ffmpeg: skipped: it is not installed"
    [[ -n $libde265 ]] || echo "libde265: skipped: it is not installed"
}
