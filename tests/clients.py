#!/usr/bin/env python3
"""clients.py NAME BASE COLLECTION COUNT: asks the catalogue at BASE, by way of a library, for a collection of COUNT points.

It ends with status 0 where the library brings what it should, with 77 where the library isn't installed, and else with a
message."""
import sys

NAME, BASE, COLLECTION, COUNT = sys.argv[1], sys.argv[2], sys.argv[3], int(sys.argv[4])


def same(what, wanted, came):
    if wanted != came:
        sys.exit("%s: wanted %r, got %r" % (what, wanted, came))


def owslib():
    from owslib.ogcapi.features import Features

    service = Features(BASE + "/")
    classes = service.conformance()["conformsTo"]
    same("conformance", True, "http://www.opengis.net/spec/ogcapi-features-1/1.0/conf/core" in classes)
    same("the description", "3.0.3", service.api()["openapi"])
    same("a collection of features", True, COLLECTION in service.feature_collections())
    same("the queryables", "object", service.collection_queryables(COLLECTION)["type"])
    page = service.collection_items(COLLECTION, limit=7)
    same("a page", 7, page["numberReturned"])
    name = page["features"][0]["id"]
    same("an item", name, service.collection_item(COLLECTION, name)["id"])


def geopandas():
    import geopandas as library

    table = library.read_file("%s/collections/%s/items?limit=%d" % (BASE, COLLECTION, COUNT))
    same("rows", COUNT, len(table))
    same("geometries", {"Point"}, set(table.geometry.geom_type))
    same("coordinates", 4326, table.crs.to_epsg())


def qgis():
    from qgis.core import QgsApplication, QgsVectorLayer

    application = QgsApplication([], False)
    application.initQgis()
    uri = "url='%s/' typename='%s' pageSize='1000' pagingEnabled='enabled'" % (BASE, COLLECTION)
    layer = QgsVectorLayer(uri, COLLECTION, "OAPIF")
    same("a layer that is valid", True, layer.isValid())
    same("features", COUNT, sum(1 for _ in layer.getFeatures()))
    del layer
    application.exitQgis()


try:
    {"owslib": owslib, "geopandas": geopandas, "qgis": qgis}[NAME]()
except ImportError as fault:
    if NAME in str(fault):
        sys.exit(77)
    raise
