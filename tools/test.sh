#!/usr/bin/env bash
# Tests the tools of this folder. The last line is `N passed, N failed`, and `, N skipped` where something was.
#
#     tools/test.sh [PROGRAM]
#
# PROGRAM is `coupler` as it was built, crates/coupler/out/coupler where none is said. The tools need Debian's python3-numpy,
# python3-matplotlib and python3-netcdf4, and the tests of the page its chromium. What is missing is installed where that may be
# done, which a line says; else the tests that need it are skipped, which a line says too.
set -u
tools=$(cd "$(dirname "$0")" && pwd)
examples=$(cd "$tools/../examples" && pwd)
export DEBIAN_FRONTEND=noninteractive MPLBACKEND=Agg PYTHONDONTWRITEBYTECODE=1
unset DISPLAY WAYLAND_DISPLAY

# The packages that are missing. The tools run by Debian's own Python, whichever comes first in PATH.
missing() {
    /usr/bin/python3 -c 'import numpy' || echo python3-numpy
    /usr/bin/python3 -c 'import matplotlib' || echo python3-matplotlib
    /usr/bin/python3 -c 'import netCDF4' || echo python3-netcdf4
    type -P chromium || echo chromium
} 2>/dev/null

# Installs packages, where this user may. What is fetched is fetched first, so that nothing is cut off half installed.
install() {
    timeout 120 apt-get update -o Acquire::Retries=1 &&
        timeout 600 apt-get install -y --no-install-recommends --download-only "$@" &&
        timeout 1200 apt-get install -y --no-install-recommends -o DPkg::Lock::Timeout=60 "$@"
} </dev/null >/dev/null 2>&1

# All tests, within a time.
if [ -z "${TOOLS_TEST_RUNS-}" ]; then
    lacks=$(missing | grep -v /)
    if [ -n "$lacks" ] && [ "$(id -u)" = 0 ] && type -P apt-get >/dev/null; then
        echo "installing Debian's" $lacks
        install $lacks || echo 'they could not be installed'
        lacks=$(missing | grep -v /)
    fi
    if [ -n "$lacks" ]; then
        echo "not tested is what needs these packages of Debian:" $lacks
    fi
    if [[ $lacks == *python3* ]]; then
        echo '0 passed, 0 failed, 1 skipped'
        exit 0
    fi
    export TOOLS_TEST_RUNS=yes
    timeout -k 10 900 "$0" "$@"
    status=$?
    if [ $status -ge 124 ]; then
        echo 'FAILED the tools: their tests took more than 900 s'
        echo '0 passed, 1 failed'
    fi
    exit $status
fi

room=$(mktemp -d) || exit 1
trap 'rm -rf "$room"' EXIT
program=$(readlink -f "${1:-$tools/../crates/coupler/out/coupler}")
cd "$room" || exit 1
export MPLCONFIGDIR=$room
passed=0 failed=0 skipped=0

# pass NAME COMMAND ..: the command must succeed.
pass() {
    local name=$1
    shift
    if "$@" >said 2>&1; then passed=$((passed + 1)); else
        failed=$((failed + 1))
        echo "FAILED $name: $(head -c 300 said)"
    fi
}

# refuse NAME WORDS COMMAND ..: the command must end with status 1 and a message with these words.
refuse() {
    local name=$1 words=$2 status
    shift 2
    "$@" >said 2>&1
    status=$?
    if [ $status = 1 ] && grep -qF -- "$words" said && ! grep -q Traceback said; then passed=$((passed + 1)); else
        failed=$((failed + 1))
        echo "FAILED $name: status $status, $(head -c 300 said)"
    fi
}

there_and_back() {
    "$tools/coupler-netcdf" "$1" "$2" state.nc && "$tools/coupler-netcdf" --back state.nc "$1" again && cmp "$2" again
}
is_picture() { "$tools/coupler-view" "${@:2}" -o "$1" && [ "$(stat -c %s "$1")" -gt 5000 ]; }
says() { "$tools/coupler-text" "$1" "$2" >text && grep -qxF -- "$3" text; }
counts() { "$tools/coupler-text" "$1" "$2" | wc -l | grep -qx "$3"; }

one=$examples/one_column
coupler() { timeout 300 "$program" "$@"; }
if ! coupler make 7 2 made >/dev/null; then
    echo "the tools are not tested: there is no program $program"
    echo '0 passed, 0 failed, 1 skipped'
    exit 0
fi

# There and back: the same bytes, of versions 1 and 2 and of the air alone.
pass 'a made state there and back' there_and_back made.grid made.start
pass 'the one column there and back' there_and_back "$one/grid" "$one/start"
pass 'the air alone there and back' there_and_back "$examples/cubed_sphere/grid" "$examples/cubed_sphere/start"
"$tools/coupler-netcdf" made.grid made.start made.nc
pass 'areas, units and shapes in NetCDF' /usr/bin/python3 -c '
import netCDF4
file = netCDF4.Dataset("made.nc")
assert file.variables["water"].dimensions == ("layer", "ocean_tile", "ocean_y", "ocean_x")
assert file.variables["water"].shape == (2, 1, 16, 84) and file.variables["ice"].shape == (3, 1, 16, 84)
assert file.variables["elapsed"].units == "s" and file.variables["atmos_area"].standard_name == "cell_area"
assert int(file.variables["atmos_area"][5, 1, 1]) == 1344 and (file.variables["water"][0] == 50 * file.variables["ocean_area"][:]).all()
assert len(file.dimensions["face"]) == 83 * 16 + 84 * 15 + 16 + 42'

# The text: the numbers of the one column, a line for each cell and face.
pass 'the air of the one column' says "$one/grid" "$one/start" 'atmos 0 0 0 area=16 air_heat=44800 air_vapour=0 air_sun=160'
pass 'the ocean of the one column' says "$one/grid" "$one/start" \
    'ocean 0 0 0 area=12 parts=65536,0 ice=0 ice_heat=0 water=400 heat=570400 salt=40 to_ice=0,0,100,142600,10 to_ocean=50,71300,5'
pass 'a line for each cell and face' counts made.grid made.start $((1 + 24 + 24 + 1344 + 83 * 16 + 84 * 15 + 16 + 42))

# Pictures.
pass 'stocks' is_picture stocks.png stocks "$tools/test/one_column.stocks"
pass 'stocks as SVG' is_picture stocks.svg stocks "$tools/test/one_column.stocks"
pass 'exchanges' is_picture exchanges.png exchanges "$tools/test/one_column.exchanges"
cat >fields.py <<END
import importlib.machinery, importlib.util, os, sys
sys.path.insert(0, "$tools")
import coupler_files
coupler_files.end_with = lambda main: None
loader = importlib.machinery.SourceFileLoader("view", "$tools/coupler-view")
view = importlib.util.module_from_spec(importlib.util.spec_from_loader("view", loader))
loader.exec_module(view)
END
cat >maps.py <<'END'
from fields import *
for field in "air_temperature air_vapour air_sun land_temperature land_water ocean_temperature ocean_salinity ocean_water ice_water ice_temperature ice_part".split():
    sys.argv = ["coupler-view", "map", "made.grid", "made.start", field, "-o", "map.png"]
    view.main()
    assert os.path.getsize("map.png") > 5000
    os.remove("map.png")
END
pass 'a map of each field' /usr/bin/python3 maps.py
most_ice() {
    /usr/bin/python3 -c 'import sys; sys.path.insert(0, sys.argv[1]); from coupler_files import read_grid, read_state
ice = read_state(sys.argv[2] + ".restart", read_grid(sys.argv[2] + ".grid")).sections["ice"].sum(axis=0).tolist()
print(1 + ice.index(max(ice)))' "$tools" "$1"
}
is_label() { "$tools/coupler-view" map "$1" "$2" "$3" -o label.svg && grep -qF -- "$4" label.svg; }
coupler whole made.grid made.nml made.start made >/dev/null
pass 'a map of ice draws the category with the most ice' is_label made.grid made.restart ice_part "part of the cell in category $(most_ice made)"
pass 'a map of open water' is_picture map.png map made.grid made.start ice_part --category 0
pass 'a deeper layer' is_picture map.png map made.grid made.start ocean_temperature --layer 1
pass 'the air alone' is_picture map.png map "$examples/cubed_sphere/grid" "$examples/cubed_sphere/start" air_temperature

# What is missing from the totals is exactly 0 in the worked tables, and isn't where a number is changed.
cat >residuals.py <<'END'
from fields import *
def heat(path):
    return [row for row in coupler_files.read_stocks(path) if row["quantity"] == "heat"]
rows = heat(sys.argv[1])
exchanges = coupler_files.read_exchanges(sys.argv[2])
print(view.residuals_of_stocks(rows), sorted({view.residual_of_exchange(row) for row in exchanges}))
END
residuals() { /usr/bin/python3 residuals.py "$1" "$2" | grep -qxF -- "$3"; }
sed 's/,840117$/,840118/' "$tools/test/one_column.stocks" >other.stocks
sed 's/-12770,-12770/-12770,-12771/' "$tools/test/one_column.exchanges" >other.exchanges
pass 'nothing is missing' residuals "$tools/test/one_column.stocks" "$tools/test/one_column.exchanges" '[0, 0] [0]'
pass 'a lost unit is shown' residuals other.stocks other.exchanges '[0, 1] [0, 1]'

# Wrong files.
head -c 400 made.grid >cut.grid
cp made.start sum.start && printf '\x01' | dd of=sum.start bs=1 seek=60 conv=notrunc status=none
head -c 1000 made.start >cut.start
(cat made.start && head -c 8 /dev/zero) >longer.start
refuse 'a grid that is cut' 'line' "$tools/coupler-text" cut.grid made.start
refuse 'a state as a grid' 'no grid text' "$tools/coupler-text" made.start made.start
refuse 'a grid as a state' 'no state of this kind' "$tools/coupler-text" made.grid made.grid
(cat made.start && printf x) >odd.start
refuse 'a byte too many' 'no multiple of 8' "$tools/coupler-text" made.grid odd.start
refuse 'another number than the sum tells' 'the sum of section air_heat' "$tools/coupler-text" made.grid sum.start
refuse 'a state that is cut' 'ends too early' "$tools/coupler-text" made.grid cut.start
refuse 'something after the end' 'follows the last section' "$tools/coupler-text" made.grid longer.start
refuse 'the state of another grid' 'section air_heat has' "$tools/coupler-text" made.grid "$one/start"
refuse 'an air state for a coupled grid' 'no state of this kind' "$tools/coupler-netcdf" made.grid "$examples/two_cells/start" x.nc
refuse 'a file that is not there' 'No such file' "$tools/coupler-view" stocks nothing -o x.png
refuse 'a table with other columns' 'its columns' "$tools/coupler-view" stocks "$tools/test/one_column.exchanges" -o x.png
sed 3,4d "$tools/test/one_column.stocks" >fewer.stocks
sed '$d' "$tools/test/one_column.exchanges" >fewer.exchanges
head -n 1 "$tools/test/one_column.stocks" >none.stocks
head -n 1 "$tools/test/one_column.exchanges" >none.exchanges
head -c 295 "$tools/test/one_column.stocks" >cut.stocks
refuse 'stocks without a row' 'the row of water of step 0 is not there' "$tools/coupler-view" stocks fewer.stocks -o x.png
refuse 'exchanges without a row' 'the row of ice-ocean salt of step 1 is not there' "$tools/coupler-view" exchanges fewer.exchanges -o x.png
refuse 'stocks without rows' 'it has no rows' "$tools/coupler-view" stocks none.stocks -o x.png
refuse 'exchanges of no step' 'the run had no step' "$tools/coupler-view" exchanges none.exchanges -o x.png
refuse 'a table that is cut' "isn't a row of this table" "$tools/coupler-view" stocks cut.stocks -o x.png
sed 's/^contact 0 E 0/contact 0 E x/' made.grid >word.grid
sed 's/^contact 0 E 0 1/contact 0 E 0 2/' made.grid >far.grid
refuse 'a word for a number' 'something else than numbers' "$tools/coupler-text" word.grid made.start
refuse 'a contact outside' 'a contact outside the mosaic' "$tools/coupler-text" far.grid made.start
refuse 'a category that is not there' '3 categories' "$tools/coupler-view" map made.grid made.start ice_part --category 4 -o x.png
refuse 'ice of open water' 'has no ice' "$tools/coupler-view" map made.grid made.start ice_water --category 0 -o x.png
refuse 'a layer below 0' '2 layers' "$tools/coupler-view" map made.grid made.start ocean_temperature --layer -1 -o x.png
refuse 'a field that is not there' 'there is no field' "$tools/coupler-view" map made.grid made.start ocean_colour -o x.png
refuse 'a layer that is not there' '2 layers' "$tools/coupler-view" map made.grid made.start ocean_temperature --layer 2 -o x.png
refuse 'a picture of another kind' 'must end with' "$tools/coupler-view" stocks "$tools/test/one_column.stocks" -o x.gif
refuse 'no display' 'no display' "$tools/coupler-view" stocks "$tools/test/one_column.stocks"
refuse 'NetCDF of another grid' 'no state of this grid' "$tools/coupler-netcdf" --back made.nc "$examples/two_cells/grid" x
refuse 'no NetCDF' 'NetCDF' "$tools/coupler-netcdf" --back made.grid made.grid x
refuse 'no words' 'coupler-netcdf GRID STATE OUT.nc' "$tools/coupler-netcdf"

refuse 'no words to view' 'coupler-view --help tells' "$tools/coupler-view"
refuse 'a page without a name' 'coupler-view --help tells' "$tools/coupler-view" page made

# Grids in the layout of FMS's tools: areas that are whole come back as the same bytes, from the least grid to a folded ocean.
fms_and_back() {
    rm -rf fms && "$tools/coupler-fms" --back "$1" fms && "$tools/coupler-fms" fms/grid_spec.nc again "${@:2}" && cmp "$1" again && coupler check again
}
for size in 1 2 5 16; do
    coupler make 9 "$size" "fms$size" >/dev/null
    pass "a made grid of size $size as FMS's files and back" fms_and_back "fms$size.grid"
done
pass "the one column as FMS's files and back" fms_and_back "$one/grid" --layers 1 --categories 1
reports() { grep -qF -- "$1" told; }
"$tools/coupler-fms" --back fms5.grid five
"$tools/coupler-fms" five/grid_spec.nc again >told
pass 'the unit of whole areas is told' reports 'unit: 1 m2; greatest relative change of a cell'"'"'s area by rounding: atmos 0, land 0, ocean 0'
pass 'names, contacts and indices are those of FMS' /usr/bin/python3 "$tools/test/layout.py" five 5

# A true cubed sphere and a tripolar ocean: areas are rounded, and the grid keeps all rules.
pass 'files of a true sphere' /usr/bin/python3 "$tools/test/sphere.py" 6 30 24 sphere
"$tools/coupler-fms" sphere/grid_spec.nc sphere.grid >told
for words in 'unit: 512 m2' 'by rounding: atmos' 'exchange cells of land and ocean, ' ' to the nearest wet cell of the ocean' 'not had: the parts of the mask'; do
    pass "of a true sphere is told: $words" reports "$words"
done
pass 'the program accepts a true sphere' coupler check sphere.grid
pass 'areas and contacts of a true sphere' /usr/bin/python3 "$tools/test/check_sphere.py" sphere sphere.grid
"$tools/coupler-fms" sphere/grid_spec.nc coarse.grid --unit 1e11 --layers 4 --categories 5 >told
pass 'a coarser unit rounds exchange cells away' reports 'exchange cells of less than a unit'
pass 'the program accepts it in a coarser unit' coupler check coarse.grid
pass 'a true sphere there and back' fms_and_back sphere.grid

# Wrong files of FMS's: each is a copy in which one thing is changed.
spoil() { rm -rf bad && cp -r "${from:-five}" bad && /usr/bin/python3 "$tools/test/spoil.py" "bad/$1" "${@:2}"; }
refuse_fms() {
    refuse "$1" "$2" "$tools/coupler-fms" bad/grid_spec.nc x.grid "${@:3}"
}
refuse 'no coupler mosaic' 'it has no variable atm_mosaic_file' "$tools/coupler-fms" five/ocean_mosaic.nc x.grid
refuse 'no NetCDF of FMS' 'no NetCDF can be read' "$tools/coupler-fms" made.grid x.grid
refuse 'no file of FMS' 'no NetCDF can be read' "$tools/coupler-fms" nothing.nc x.grid
refuse 'a grid of air for FMS' 'the grid has air alone' "$tools/coupler-fms" --back "$examples/two_cells/grid" x
spoil grid_spec.nc set ocn_mosaic_file other.nc && refuse_fms 'a mosaic that is not there' 'other.nc: no NetCDF can be read'
spoil ocean_mosaic.nc set gridfiles 0 other.nc && refuse_fms 'a doubled grid that is not there' 'other.nc: no NetCDF can be read'
spoil ocean_mosaic.nc rename gridtiles tiles && refuse_fms 'a mosaic without tiles' 'it has no variable gridtiles'
spoil ocean_hgrid.nc rename area size && refuse_fms 'a doubled grid without areas' 'it has no variable area'
spoil atmos_mosaic.nc set contacts 0 a:tile1::a:tile9 && refuse_fms 'a contact of another tile' "isn't of two tiles of this mosaic"
spoil atmos_mosaic.nc set contact_index 0 10:10,1:10 && refuse_fms 'a contact index of one range' "isn't i:i,j:j::i:i,j:j"
spoil atmos_mosaic.nc set contact_index 0 9:9,1:10::1:1,1:10 && refuse_fms 'a contact inside a tile' 'is no range along an edge'
spoil atmos_mosaic.nc set contact_index 0 10:10,2:10::1:1,1:10 && refuse_fms 'a contact from the middle of a cell' 'is no range along an edge'
spoil atmos_mosaic.nc set contact_index 0 10:10,1:8::1:1,1:10 && refuse_fms 'a contact of unequal ranges' 'joins ranges of different length'
spoil atmos_mosaic.nc set contact_index 1 10:10,1:10::1:1,1:10 && refuse_fms 'two contacts of one side' 'join the same side'
spoil ocean_mosaic.nc set contact_index 1 1:204,56:56::1:204,56:56 && refuse_fms 'a side that meets itself' 'joins a side of a cell to itself'
exchange=atmos_mosaic_tile1Xocean_mosaic_tile1.nc
spoil $exchange set tile1_cell 3 0 6 && refuse_fms 'an exchange cell outside' 'exchange cell 4 has the cell 6,'
spoil $exchange set tile2_cell 0 1 0 && refuse_fms 'an exchange cell at row 0' 'exchange cell 1 has the cell 1,0'
spoil $exchange set xgrid_area 2 -1 && refuse_fms 'an area below 0' 'exchange cell 3 has an area below 0'
spoil $exchange set xgrid_area 2 nan && refuse_fms 'an area that is no number' 'something else than numbers'
spoil $exchange set contact atmos_mosaic:tile1::ocean_mosaic:tile7 && refuse_fms 'exchange cells of another tile' "its contact isn't of a tile"
spoil $exchange rename xgrid_area area && refuse_fms 'exchange cells without areas' 'it has no variable xgrid_area'
spoil ocean_mask.nc set mask 0 0 0 && refuse_fms 'a mask of another ocean' 'is dry by the mask, and has exchange cells'
spoil grid_spec.nc rename aXo_file others && refuse_fms 'air without exchange cells' 'has no exchange cell of half a unit'
spoil grid_spec.nc rename lXo_file others && refuse_fms 'land without a way, and no places' 'it has no variable x'
from=sphere spoil grid_spec.nc rename lXo_file others && pass 'land without exchange cells with the ocean' "$tools/coupler-fms" bad/grid_spec.nc x.grid
pass 'the program accepts the nearest outlets' coupler check x.grid
rm -rf bad && cp -r five bad
refuse_fms 'nine layers' '1 to 8 layers' --layers 9
refuse_fms 'a unit that is too large' 'has no exchange cell of half a unit' --unit 1e9
refuse_fms 'a unit that is too small' '2^40' --unit 1e-12
refuse 'no words for FMS' 'coupler-fms --help tells' "$tools/coupler-fms"
refuse 'a unit that is no number' 'coupler-fms --help tells' "$tools/coupler-fms" a b --unit none

# The page of a run. What stands in it is tried in a browser.
run_of() { sed "s/seconds = 86400/seconds = $3/" made.nml >"$1.nml" && coupler whole "$2.grid" "$1.nml" "$2.start" "$1"; }
view_page() { "$tools/coupler-view" page "${@:2}" -o "$1.html"; }
is_below() { [ "$(stat -c %s "$1")" -lt "$2" ]; }
coupler make 7 16 w >/dev/null && run_of w w 864000 >/dev/null
pass 'the page of ten days' view_page w w
pass 'the page of ten days is under 3 MB' is_below w.html 3000000
coupler make 15 64 long >/dev/null && run_of long long 7200 >/dev/null
pass 'the page of a large grid' view_page long long
pass 'the page of a large grid is under 20 MB' is_below long.html 20000000
/usr/bin/python3 "$tools/test/great.py" "$one" great
coupler whole great.grid great.nml great.start great >/dev/null
pass 'a page of numbers beyond 2^53' view_page great great
awk -F, -v OFS=, 'NR > 4 && $4 == "heat" { $13 = sprintf("%.0f", $13 + 1) } { print }' made.stocks >lost.stocks
cp made.exchanges lost.exchanges && cp made.restart lost.restart
pass 'a page of a run that lost a unit' view_page lost lost --grid made.grid --names made.nml --start made.start
run_of first made 36000 >/dev/null
cp first.restart made2.start && cp made.grid made2.grid && run_of second made2 50400 >/dev/null
pass 'a page of two runs' view_page two first second --grid made.grid --start made.start
run_of none made 0 >/dev/null
pass 'a page of a run of no step' view_page none none --grid made.grid --start made.start
refuse 'a page of a run that is not there' 'nothing.grid: no grid text' view_page x nothing
refuse 'a page without a namelist' 'no namelist can be read' view_page x lost --grid made.grid --start made.start
refuse 'a grid as a namelist' 'no group &coupler_nml' view_page x made --names made.grid
refuse 'a page of another start' "it isn't the state of step 0 of made.stocks" view_page x made --start made.restart
cp made.start other.restart && cp made.stocks other.stocks && cp made.exchanges other.exchanges
refuse 'a page of another end' "it isn't the state of step 24 of other.stocks" view_page x other --grid made.grid --names made.nml --start made.start
refuse 'runs that do not go on' "it doesn't go on where made.stocks ends" view_page x made second
refuse 'a page of air alone' 'the grid has air alone' view_page x made --grid "$examples/two_cells/grid"
refuse 'a page of another kind' 'must end with .html' "$tools/coupler-view" page made -o x.png
cp made.stocks short.stocks && cp made.restart short.restart && sed '$d' made.exchanges >short.exchanges
refuse 'a page of a table without a row' 'short.exchanges: the row of ice-ocean salt of step 24 is not there' view_page x short --grid made.grid --names made.nml --start made.start

if type -P chromium >/dev/null; then
    timeout -k 10 600 /usr/bin/python3 "$tools/test/page_test.py" "$(type -P chromium)" "$room" >said 2>&1
    grep -v '^passed ' said
    passed=$((passed + $(grep -c '^passed ' said))) failed=$((failed + $(grep -c '^FAILED ' said)))
    skipped=$((skipped + $(grep -c '^skipped' said)))
    if ! grep -q -e '^passed a run of no step' -e '^FAILED a run of no step' -e '^skipped' said; then
        failed=$((failed + 1))
        echo 'FAILED the page: its tests did not come to their end'
    fi
else
    echo 'the page is not tested in a browser: there is no chromium'
    skipped=$((skipped + 1))
fi

if [ "$skipped" = 0 ]; then
    echo "$passed passed, $failed failed"
else
    echo "$passed passed, $failed failed, $skipped skipped"
fi
[ "$failed" = 0 ]
