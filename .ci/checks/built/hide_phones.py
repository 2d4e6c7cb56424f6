#!/usr/bin/env python3
"""Shows that imgref-hide hides what phones and cameras make, keeps the sound in step, and keeps nothing else of a container.

Each kind is made by ffmpeg: turned by metadata, with a varying rate, cut by an edit list, with sound that begins later, HDR, upright in
4K, interlaced, with all brightness values. A bright square goes through it, which a detector finds. What is visible of it is counted in
the decoded output. The kinds with odd times are those of recipes.py, whose frames have their number in them.
"""
import json
import pathlib
import re
import shutil
import subprocess
import sys
import tempfile

sys.path.insert(0, str(pathlib.Path(__file__).resolve().parents[2]))
import recipes
from checking import Cases, both_builds
from hiding import Place, all_of, encoded, ffmpeg, frames_of, is_hidden


def streams(folder, name, entries="stream=codec_type,codec_name,width,height,pix_fmt,field_order,color_transfer,color_primaries,color_space,color_range,codec_tag_string:stream_side_data=rotation"):
    said = subprocess.run(["ffprobe", "-v", "error", "-show_entries", entries, "-of", "json", name], cwd=folder, capture_output=True, text=True).stdout
    return json.loads(said or "{}").get("streams", [])


def by_times(cases, place):
    """Rates that vary, edit lists, joined clips and sound that begins earlier: frames and sound come at their times."""
    folder = place.folder / "times"
    folder.mkdir()
    made = recipes.made_files(folder)
    ffmpeg(folder, "-i silent.mp4 -itsoffset 0.4 -i sound.m4a -map 0:v -map 1:a -c copy later.mp4")
    ffmpeg(folder, "-ss 1.3 -i plain.mp4 -t 1.5 -c copy cut.mov")

    def tried(label, file):
        ending = ".mkv" if file.endswith(".mkv") else ".mp4"
        out = f"{pathlib.Path(file).stem}-out{ending}"
        done = place.run(folder, file, out)
        if done.returncode:
            cases.count(f"{label} goes through", False, done.stderr)
            return
        given, after = recipes.Shown(folder, file), recipes.Shown(folder, out)
        cases.count(f"{label}: the square is in {len(given.frames)} frames, and visible in none of {len(after.frames)}", given.bared() == len(given.frames) and after.frames and not after.bared(), f"visible in {after.bared()}")
        wrong = [*recipes.out_of_step(given, after)]
        cases.count(f"{label}: each frame comes at its time", not wrong, str(wrong))
        first, second = recipes.sound_of(folder, file), recipes.sound_of(folder, out)
        late = [abs(second[it] - first[it]) for it in first if it in second]
        cases.count(f"{label}: the sound too", len(late) >= len(first) - 2 and max(late) < recipes.APART, f"{len(late)} of {len(first)}, {max(late, default=0):.3f} s apart")

    kinds = made | {"sound that begins later": "later.mp4", "an edit list": "cut.mov"}
    all_of(cases, [lambda it=it: tried(*it) for it in kinds.items()], jobs=2)


def by_turns(cases, place):
    """A video that is turned by metadata is upright in the output, without that metadata."""
    folder = place.sub("turns")
    for degrees in (90, 180, 270):
        ffmpeg(folder, f"-i in.mp4 -c copy -metadata:s:v rotate={degrees} t{degrees}.mp4")
        done = place.run(folder, f"t{degrees}.mp4", f"o{degrees}.mp4")
        found = (streams(folder, f"o{degrees}.mp4") or [{}])[0]
        upright = (found.get("width"), found.get("height")) == ((96, 160) if degrees % 180 else (160, 96))
        cases.count(f"turned by {degrees} degrees: hidden, upright, and no longer turned", done.returncode == 0 and upright and "side_data_list" not in found and is_hidden(folder, f"o{degrees}.mp4"), f"{found} {done.stderr}")
        # (the moving square is covered: what is beside it tells how the picture is turned)
        marked = f"drawbox=x=0:y=0:w=40:h=16:color=0xa0a0a0:t=fill"
        ffmpeg(folder, f"-i in.mp4 -vf {marked} -c:v libx264 -crf 10 -metadata:s:v rotate={degrees} m.mp4")
        place.run(folder, "m.mp4", "mo.mp4", "--force")
        ffmpeg(folder, "-i m.mp4 -frames:v 1 -pix_fmt gray -f rawvideo seen.raw")
        seen, (after, *_), = (folder / "seen.raw").read_bytes(), frames_of(folder, "mo.mp4")[0]
        apart = [abs(a - b) for a, b in zip(seen, after) if a < 170 and b > 24]
        cases.count(f"turned by {degrees} degrees: the picture is as players show it", len(seen) == len(after) and len(apart) > 8000 and sum(apart) / len(apart) < 4, f"{len(apart)}")


def by_hdr(cases, place):
    """HDR of 10 bits keeps its bits and the names of its colours."""
    folder = place.sub("hdr")
    for name, transfer in (("pq", "smpte2084"), ("hlg", "arib-std-b67")):
        ffmpeg(folder, f"-i in.mp4 -c:a copy -c:v libx265 -x265-params log-level=error -pix_fmt yuv420p10le -vf setparams=color_primaries=bt2020:color_trc={transfer}:colorspace=bt2020nc -tag:v hvc1 {name}.mov")
        done = place.run(folder, f"{name}.mov", f"{name}.mp4")
        found = (streams(folder, f"{name}.mp4") or [{}])[0]
        kept = [found.get(it) for it in ("codec_name", "pix_fmt", "color_transfer", "color_primaries", "color_space", "codec_tag_string")]
        cases.count(f"HDR by {name.upper()}: hidden, with 10 bits and its colours", done.returncode == 0 and kept == ["hevc", "yuv420p10le", transfer, "bt2020", "bt2020nc", "hvc1"] and is_hidden(folder, f"{name}.mp4"), f"{kept} {done.stderr}")
        cases.count(f"HDR by {name.upper()}: what isn't kept is said", f"HDR ({name.upper()}) is kept" in done.stderr, done.stderr)


def by_fields(cases, place):
    """Interlaced video stays interlaced, and its square is covered in both fields."""
    folder = place.sub("fields")
    ffmpeg(folder, "-i in.mp4 -vf setfield=tff -c:v libx264 -crf 8 -flags +ilme+ildct -x264-params tff=1 -c:a copy fields.mp4")
    given = (streams(folder, "fields.mp4") or [{}])[0]
    done = place.run(folder, "fields.mp4", "out.mp4")
    found = (streams(folder, "out.mp4") or [{}])[0]
    cases.count("interlaced: hidden, and interlaced as before", done.returncode == 0 and given.get("field_order") in ("tt", "tb") and found.get("field_order") == given.get("field_order") and is_hidden(folder, "out.mp4"), f"{given} {found} {done.stderr}")


def by_colours(cases, place):
    """All brightness values, and the colours of what isn't covered."""
    folder = place.sub("colours")
    ffmpeg(folder, "-i in.mp4 -vf scale=out_range=full,format=yuvj420p -c:v libx264 -crf 8 -pix_fmt yuvj420p -c:a copy full.mp4")
    done = place.run(folder, "full.mp4", "out.mp4")
    colour = lambda name: [int(it) for it in subprocess.run(["ffmpeg", "-v", "error", "-i", name, "-frames:v", "1", "-vf", "crop=4:4:150:80,scale=1:1", "-pix_fmt", "rgb24", "-f", "rawvideo", "-"], cwd=folder, capture_output=True).stdout[:3]]
    before, after = colour("full.mp4"), colour("out.mp4")
    cases.count("all brightness values: hidden, and what isn't covered has its colour", done.returncode == 0 and is_hidden(folder, "out.mp4") and max(abs(a - b) for a, b in zip(before, after)) <= 3, f"{before} {after} {done.stderr}")


def by_size(cases, place):
    """Upright 4K, as two frames."""
    folder = place.folder / "size"
    folder.mkdir()
    encoded(folder, "big.mp4", "-t 0.3", width=2160, height=3840, frames=3, square=300, sound=False)
    done = place.run(folder, "big.mp4", "out.mp4")
    frames, wide, high = frames_of(folder, "out.mp4") if done.returncode == 0 else ([], 0, 0)
    cases.count("upright 4K is hidden", (len(frames), wide, high) == (3, 2160, 3840) and not any(max(it) > 170 for it in frames), done.stderr)


def by_container(cases, place):
    """Nothing but video and sound goes along: no place, title, thumbnail, chapter, subtitle or data."""
    folder = place.sub("container")
    (folder / "meta.txt").write_text(";FFMETADATA1\ntitle=Anna\ncomment=Anna's party\nlocation=+52.5200+013.4050/\n[CHAPTER]\nTIMEBASE=1/1000\nSTART=0\nEND=900\ntitle=Anna speaks\n")
    (folder / "said.srt").write_text("1\n00:00:00,000 --> 00:00:00,900\nAnna speaks\n")
    ffmpeg(folder, "-i in.mp4 -frames:v 1 thumb.png")
    ffmpeg(folder, "-i in.mp4 -i thumb.png -i said.srt -i meta.txt -map 0 -map 1 -map 2 -map_metadata 3 -map_chapters 3 -metadata:s:a:0 handler_name=Anna -metadata:s:a:0 language=deu -metadata:s:v:0 title=Anna -c copy -c:s mov_text -disposition:v:1 attached_pic -movflags use_metadata_tags full.mp4")
    ffmpeg(folder, "-i in.mp4 -map 0 -c copy -timecode 10:00:00:00 -metadata com.apple.quicktime.location.ISO6709=+52.5200+013.4050/ -movflags use_metadata_tags full.mov")
    ffmpeg(folder, "-i in.mp4 -i said.srt -i meta.txt -map 0 -map 1 -map_metadata 2 -attach meta.txt -metadata:s:t mimetype=text/plain -c copy -c:s srt full.mkv")
    for name in ("full.mp4", "full.mov", "full.mkv"):
        given = [it["codec_type"] for it in streams(folder, name)]
        for ending in (".mp4", ".mkv", ".mov"):
            out = f"{name[-3:]}{ending}"
            done = place.run(folder, name, out, "--force")
            kinds = [it["codec_type"] for it in streams(folder, out)]
            said = subprocess.run(["ffprobe", "-v", "error", "-show_chapters", "-show_entries", "format_tags:stream_tags:chapter_tags", "-of", "json", out], cwd=folder, capture_output=True, text=True).stdout
            data = (folder / out).read_bytes() if done.returncode == 0 else b"Anna"
            cases.count(f"{name} to {ending}: only video and sound, of {given}", len(given) > 2 and kinds == ["video", "audio"] and b"Anna" not in data and b"52.52" not in data and b"10:00:00" not in data and not re.search("Anna|52.52|timecode|deu", said) and is_hidden(folder, out), f"{kinds} {said} {done.stderr}")
    cases.count("what is left out is said", "left out: " in done.stderr, done.stderr)


def main():
    cases = Cases()
    for program in both_builds(cases, "imgref_frames")[:1]:
        missing = [it for it in ("ffmpeg", "ffprobe") if not shutil.which(it)]
        if missing:
            cases.skip("videos of phones", *missing, number=50)
            continue
        with tempfile.TemporaryDirectory() as folder:
            place = Place(folder, program)
            encoded(folder, "in.mp4")
            all_of(cases, [lambda it=it: it(cases, place) for it in (by_times, by_container, by_turns, by_hdr, by_size, by_fields, by_colours)])
    return cases.end()


if __name__ == "__main__":
    sys.exit(main())
