# The backbone of abilene.edges, in the form in which collections of topologies have them.
graph [
  directed 0
  Network "Abilene"
  Type "Backbone"
  node [
    id 0
    label "Seattle"
    Country "United States"
    Longitude -122.30
    Latitude 47.60
    Internal 1
  ]
  node [
    id 1
    label "Sunnyvale"
    Country "United States"
    Longitude -122.03
    Latitude 37.37
    Internal 1
  ]
  node [
    id 2
    label "Los Angeles"
    Country "United States"
    Longitude -118.25
    Latitude 34.05
    Internal 1
  ]
  node [
    id 3
    label "Denver"
    Country "United States"
    Longitude -104.98
    Latitude 39.73
    Internal 1
  ]
  node [
    id 4
    label "Kansas City"
    Country "United States"
    Longitude -94.57
    Latitude 39.09
    Internal 1
  ]
  node [
    id 5
    label "Houston"
    Country "United States"
    Longitude -95.36
    Latitude 29.77
    Internal 1
  ]
  node [
    id 6
    label "Atlanta"
    Country "United States"
    Longitude -84.38
    Latitude 33.75
    Internal 1
  ]
  node [
    id 7
    label "Indianapolis"
    Country "United States"
    Longitude -86.15
    Latitude 39.77
    Internal 1
  ]
  node [
    id 8
    label "Chicago"
    Country "United States"
    Longitude -87.65
    Latitude 41.85
    Internal 1
  ]
  node [
    id 9
    label "New York"
    Country "United States"
    Longitude -74.00
    Latitude 40.71
    Internal 1
  ]
  node [
    id 10
    label "Washington"
    Country "United States"
    Longitude -77.03
    Latitude 38.89
    Internal 1
  ]
  edge [
    source 0
    target 1
    weight 861
    LinkLabel "OC-192"
  ]
  edge [
    source 0
    target 3
    weight 2095
    LinkLabel "OC-192"
  ]
  edge [
    source 1
    target 2
    weight 366
    LinkLabel "OC-192"
  ]
  edge [
    source 1
    target 3
    weight 1295
    LinkLabel "OC-192"
  ]
  edge [
    source 2
    target 5
    weight 1893
    LinkLabel "OC-192"
  ]
  edge [
    source 3
    target 4
    weight 639
    LinkLabel "OC-192"
  ]
  edge [
    source 4
    target 5
    weight 902
    LinkLabel "OC-192"
  ]
  edge [
    source 4
    target 7
    weight 548
    LinkLabel "OC-192"
  ]
  edge [
    source 5
    target 6
    weight 1176
    LinkLabel "OC-192"
  ]
  edge [
    source 6
    target 7
    weight 587
    LinkLabel "OC-192"
  ]
  edge [
    source 6
    target 10
    weight 846
    LinkLabel "OC-192"
  ]
  edge [
    source 7
    target 8
    weight 260
    LinkLabel "OC-192"
  ]
  edge [
    source 8
    target 9
    weight 700
    LinkLabel "OC-192"
  ]
  edge [
    source 9
    target 10
    weight 233
    LinkLabel "OC-192"
  ]
]
