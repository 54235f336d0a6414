# Made by hand, in the form of the Internet Topology Zoo: accents, quotes, labels that stand twice or are
# missing, a link that is listed three times, and one from a switch to itself.
graph [
  directed 0
  Network "Northern Ring"
  node [
    id 0
    label "Reykjavík"
    Internal 1
  ]
  node [
    id 1
    label "København"
    Internal 1
  ]
  node [
    id 2
    label "Århus"
    Internal 1
  ]
  node [
    id 3
    label "Malmö"
    Internal 1
  ]
  node [
    id 4
    label "Göteborg"
    Internal 1
  ]
  node [
    id 5
    label "Stockholm"
    Internal 1
  ]
  node [
    id 6
    label "Uppsala"
    Internal 1
  ]
  node [
    id 7
    label "Luleå"
    Internal 1
  ]
  node [
    id 8
    label "Oslo"
    Internal 1
  ]
  node [
    id 9
    label "Bergen"
    Internal 1
  ]
  node [
    id 10
    label "Trondheim"
    Internal 1
  ]
  node [
    id 11
    label "Tromsø"
    Internal 1
  ]
  node [
    id 12
    label "Helsinki"
    Internal 1
  ]
  node [
    id 13
    label "Turku"
    Internal 1
  ]
  node [
    id 14
    label "Oulu"
    Internal 1
  ]
  node [
    id 15
    label "Tallinn"
    Internal 1
  ]
  node [
    id 16
    label "Tartu"
    Internal 1
  ]
  node [
    id 17
    label "Rīga"
    Internal 1
  ]
  node [
    id 18
    label "Vilnius"
    Internal 1
  ]
  node [
    id 19
    label "Kaunas"
    Internal 1
  ]
  node [
    id 20
    label "Gdańsk"
    Internal 1
  ]
  node [
    id 21
    label "Warszawa"
    Internal 1
  ]
  node [
    id 22
    label "Kraków"
    Internal 1
  ]
  node [
    id 23
    label "Łódź"
    Internal 1
  ]
  node [
    id 24
    label "Poznań"
    Internal 1
  ]
  node [
    id 25
    label "Berlin"
    Internal 1
  ]
  node [
    id 26
    label "Hamburg"
    Internal 1
  ]
  node [
    id 27
    label "Zürich"
    Internal 1
  ]
  node [
    id 28
    label "Genève"
    Internal 1
  ]
  node [
    id 29
    label "Paris"
    Internal 1
  ]
  node [
    id 30
    label "Paris"
    Internal 1
  ]
  node [
    id 31
    label "Saint-Étienne"
    Internal 1
  ]
  node [
    id 32
    label "London &quot;Docklands&quot;"
    Internal 1
  ]
  node [
    id 33
    label "London"
    Internal 1
  ]
  node [
    id 34
    label "?"
    Internal 1
  ]
  node [
    id 35
    Internal 1
  ]
  edge [ source 0 target 1 LinkLabel "submarine" ]
  edge [ source 0 target 33 ]
  edge [ source 1 target 2 ]
  edge [ source 1 target 3 ]
  edge [ source 1 target 26 ]
  edge [ source 2 target 4 ]
  edge [ source 3 target 4 ]
  edge [ source 3 target 5 ]
  edge [ source 4 target 8 ]
  edge [ source 5 target 6 ]
  edge [ source 5 target 8 ]
  edge [ source 5 target 12 ]
  edge [ source 6 target 7 ]
  edge [ source 7 target 14 ]
  edge [ source 7 target 11 ]
  edge [ source 8 target 9 ]
  edge [ source 8 target 10 ]
  edge [ source 9 target 10 ]
  edge [ source 10 target 11 ]
  edge [ source 12 target 13 ]
  edge [ source 12 target 14 ]
  edge [ source 12 target 15 ]
  edge [ source 13 target 14 ]
  edge [ source 15 target 16 ]
  edge [ source 15 target 17 ]
  edge [ source 16 target 17 ]
  edge [ source 17 target 18 ]
  edge [ source 18 target 19 ]
  edge [ source 18 target 21 ]
  edge [ source 19 target 20 ]
  edge [ source 20 target 24 ]
  edge [ source 20 target 21 ]
  edge [ source 21 target 22 ]
  edge [ source 21 target 23 ]
  edge [ source 21 target 12 ]
  edge [ source 22 target 23 ]
  edge [ source 23 target 24 ]
  edge [ source 24 target 25 ]
  edge [ source 25 target 26 ]
  edge [ source 25 target 27 ]
  edge [ source 25 target 21 ]
  edge [ source 26 target 33 ]
  edge [ source 27 target 28 ]
  edge [ source 28 target 29 ]
  edge [ source 29 target 30 ]
  edge [ source 29 target 31 ]
  edge [ source 28 target 31 ]
  edge [ source 30 target 32 ]
  edge [ source 32 target 33 ]
  edge [ source 33 target 29 ]
  edge [ source 30 target 29 ]
  edge [ source 25 target 25 LinkLabel "loop" ]
  edge [ source 1 target 26 LinkLabel "second fibre" ]
  edge [ source 26 target 1 LinkLabel "back" ]
  edge [ source 34 target 26 ]
  edge [ source 35 target 34 ]
  edge [ source 35 target 25 ]
]
