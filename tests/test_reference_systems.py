"""Texts of reference systems that come from a file: well-known text, PROJJSON and EPSG codes are taken, and nothing is opened or fetched for one."""
import http.server
import json
import os
import subprocess
import threading
import unittest

from made_libraries import over_library
from support import ROOT, read, write

import surroundings
from sfq.layers import systems

WGS84 = ('GEOGCRS["WGS 84",DATUM["World Geodetic System 1984",ELLIPSOID["WGS 84",6378137,298.257223563]],CS[ellipsoidal,2],'
         'AXIS["latitude",north],AXIS["longitude",east],ANGLEUNIT["degree",0.0174532925199433]{}]')
OLD = 'GEOGCS["x",DATUM["x",SPHEROID["WGS 84",6378137,298.257223563]{}],PRIMEM["Greenwich",0],UNIT["degree",0.0174532925199433]{}]'
MERCATOR = ('PROJCRS["x",BASEGEOGCRS["x",DATUM["x",ELLIPSOID["WGS 84",6378137,298.257223563]]],CONVERSION["u",METHOD["{}"]],CS[Cartesian,2],'
            'AXIS["e",east],AXIS["n",north],LENGTHUNIT["metre",1]]')
BOUND = (f'BOUNDCRS[SOURCECRS[{WGS84.format("")}],TARGETCRS[{WGS84.format("")}],ABRIDGEDTRANSFORMATION["a",METHOD["NTv2",ID["EPSG",9615]],'
         'PARAMETERFILE["Latitude and longitude difference file","{}"]]]')
# PROJJSON of the system of longitude and latitude, as its specification has one.
OF_JSON = {"type": "GeographicCRS", "name": "WGS 84", "datum": {"type": "GeodeticReferenceFrame", "name": "World Geodetic System 1984", "ellipsoid": {
    "name": "WGS 84", "semi_major_axis": 6378137, "inverse_flattening": 298.257223563}}, "coordinate_system": {"subtype": "ellipsoidal", "axis": [
        {"name": "Geodetic latitude", "abbreviation": "Lat", "direction": "north", "unit": "degree"},
        {"name": "Geodetic longitude", "abbreviation": "Lon", "direction": "east", "unit": "degree"}]}}
# Reads texts, and says of each what it is: a system that may be used, or why not.
SCRIPT = """
import json, sys
from sfq.layers import reading, systems
osr = reading.modules().osr
found = []
for it in json.load(sys.stdin):
    try:
        system = systems.of_text(osr, it)
        systems.transformation(osr, system, systems.named(osr, "EPSG:4326"))
        found.append([True, system.GetName()])
    except ValueError as error:
        found.append([False, str(error)])
    except RuntimeError as error:
        found.append([None, str(error)])
print(json.dumps(found))
"""


class Counting(http.server.BaseHTTPRequestHandler):
    """Notes each request, and serves a reference system."""

    def do_GET(self):
        self.server.asked.append(self.path)
        self.send_response(200)
        self.end_headers()
        self.wfile.write(OLD.format("", "").encode())

    do_HEAD = do_GET

    def log_message(self, *_):
        pass


@over_library
@unittest.skipUnless(surroundings.GDAL, "needs the package python3-gdal")
class Systems(surroundings.Room):
    """What a file says of a reference system."""

    def setUp(self):
        super().setUp()
        self.server = http.server.HTTPServer(("127.0.0.1", 0), Counting)
        self.server.asked = []
        threading.Thread(target=self.server.serve_forever, daemon=True).start()
        self.addCleanup(self.server.server_close)
        self.addCleanup(self.server.shutdown)
        self.url = f"http://127.0.0.1:{self.server.server_port}/system"

    def read_texts(self, texts):
        """Returns for each text whether it is taken, and its name or what is wrong with it."""
        environment = self.environment(PYTHONPATH=f"{ROOT}/bindings/python", no_proxy="*")
        ran = subprocess.run([surroundings.GDAL, "-B", "-c", SCRIPT], input=json.dumps(texts), capture_output=True, text=True, env=environment, cwd=self.room)
        self.assertEqual(ran.returncode, 0, ran.stderr)
        return json.loads(ran.stdout)

    def test_what_is_taken(self):
        own = "OSTN15_NTv2_OSGBtoETRS.gsb"
        texts = [WGS84.format(""), OLD.format("", ""), json.dumps(OF_JSON), json.dumps(OF_JSON, indent=1), "EPSG:25832", "epsg:25832",
                 OLD.format("", ',EXTENSION["PROJ4","+proj=longlat +ellps=WGS84 +nadgrids=@null +no_defs"]')]
        names = ["WGS 84", "x", "WGS 84", "WGS 84", "ETRS89 / UTM zone 32N", "ETRS89 / UTM zone 32N", "x"]
        self.assertEqual(self.read_texts(texts), [[True, it] for it in names])
        # PROJ may not have a grid of its own, but the name is no reason to refuse it.
        self.assertNotIn("names a file", self.read_texts([BOUND.format(own)])[0][1])

    def test_what_is_not(self):
        write(f"{self.room}/system.wkt", WGS84.format(""))
        texts = [self.url, f"{self.room}/system.wkt", "system.wkt", f"file://{self.room}/system.wkt", "", "WGS84", "OGC:CRS84", "ESRI:54030", "ESRI::system.wkt",
                 "DICT:system.wkt,1", "+proj=longlat +type=crs", "+init=epsg:4326", "EPSG:", "EPSG:0", "EPSG:99999999", "urn:ogc:def:crs:EPSG::4326", "{}", "{", "[]",
                 '{"type":"Feature"}', json.dumps({**OF_JSON, "type": "x"}), '{"type":"GeographicCRS","name":"+proj=longlat"}', "[" * 100, None, 4326, ["EPSG:4326"]]
        for text, (is_taken, said) in zip(texts, self.read_texts(texts)):
            self.assertIs(is_taken, False, (text, said))
        self.assertEqual(self.server.asked, [])

    def test_files_that_a_system_names(self):
        """PROJ would open these when a position is moved."""
        for name in (f"{self.room}/g.gsb", "../g.gsb", "./g.gsb", "~/g.gsb", self.url, f"@null,{self.room}/g.gsb"):
            texts = [
                OLD.format(f',EXTENSION["PROJ4_GRIDS","{name}"]', ""), OLD.format("", f',EXTENSION["PROJ4","+proj=longlat +ellps=WGS84 +nadgrids={name} +no_defs"]'),
                BOUND.format(name), MERCATOR.format(f"PROJ pipeline step proj=hgridshift grids={name} step proj=merc"),
                WGS84.format(f',REMARK["PROJ CRS string: +proj=longlat +ellps=WGS84 +nadgrids={name} +type=crs"]'),
            ]
            texts.append(json.dumps({**OF_JSON, "parameters": [{"name": "Latitude and longitude difference file", "value": name}]}))
            for text, (is_taken, said) in zip(texts, self.read_texts(texts)):
                self.assertIs(is_taken, False, (text, said))
                self.assertIn("it names a file, which isn't read", said, text)
        self.assertEqual(self.server.asked, [])

    def grid_json(self, text):
        """Has the tables be in the system of a text."""
        found = json.loads(surroundings.FILES["tables/grid.json"])
        found["layers"][0]["coordinate_system"] = {"authority": None, "wkt": text}
        write(f"{self.room}/tables/grid.json", json.dumps(found))

    def test_a_grid_json_that_names_a_url(self):
        for text in (self.url, OLD.format(f',EXTENSION["PROJ4_GRIDS","{self.url}"]', "")):
            self.grid_json(text)
            for name, words in (
                ("sfq-export", [f"{self.room}/rows.csv", "--like", f"{self.room}/tables", "--to", f"{self.place}/o.json", "--wgs84"]),
                ("sfq-ask", [f"{self.room}/tables", surroundings.QUERY, "--output", f"{self.place}/o.gpkg"]),
                ("sfq-import", [f"{self.room}/source.geojson", "--out", f"{self.room}/tables"]),
            ):
                if text != self.url and name != "sfq-export":
                    # Nothing is moved, so no grid would be opened.
                    continue
                status, out, err = self.run_words([*surroundings.command(surroundings.GDAL, self.room, name), *words], env=self.environment(no_proxy="*"))
                with self.subTest(name=name, text=text):
                    self.assertEqual((status, out, len(err.splitlines())), (4, "", 1), err)
                    self.assertIn("grid.json isn't one that sfq-import made", err)
        self.assertEqual((self.server.asked, os.listdir(self.place)), ([], []))

    def test_a_source_that_names_a_url(self):
        """GeoJSON could once name a URL for its system, which GDAL would fetch."""
        found = json.loads(surroundings.FILES["source.geojson"])
        for kind, key in (("link", "href"), ("url", "url"), ("name", "name")):
            found["crs"] = {"type": kind, "properties": {key: self.url}}
            write(f"{self.room}/source.geojson", json.dumps(found))
            status, _, err = self.run_words(words := surroundings.words_of("sfq-import", self.room, f"{self.place}/{kind}"), env=self.environment(no_proxy="*"))
            self.assertIn(status, (0, 6), (words, err))
        self.assertEqual(self.server.asked, [])

    def test_the_server_would_notice(self):
        script = "import sys; from osgeo import osr; osr.SpatialReference().SetFromUserInput(sys.argv[1])"
        subprocess.run([surroundings.GDAL, "-c", script, self.url], capture_output=True, env=self.environment(no_proxy="*"))
        self.assertEqual(self.server.asked, ["/system"])

    def test_codes_of_the_command_line(self):
        for code in ("OGC:CRS84", "system.wkt", self.url, "EPSG:4326 ", "EPSG:x"):
            status, _, err = self.run_words([*surroundings.words_of("sfq-import", self.room, f"{self.place}/o"), "--to", code])
            self.assertEqual(status, 2, err)
            self.assertIn("isn't the code of a reference system, such as EPSG:25832", err)


class OneCall(unittest.TestCase):
    """No other call reads the text of a system."""

    def test_in_the_sources(self):
        found = []
        for at, _, names in os.walk(f"{ROOT}/bindings"):
            found += [os.path.relpath(f"{at}/{it}", ROOT) for it in names if it.endswith(".py") and "SetFromUserInput" in read(f"{at}/{it}")]
        self.assertEqual(found, [os.path.relpath(systems.__file__, ROOT)])
        self.assertEqual(read(systems.__file__).count("SetFromUserInput"), 1)


if __name__ == "__main__":
    unittest.main()
