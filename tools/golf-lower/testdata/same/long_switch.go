package main

import "fmt"

func f(x int) string {
	switch x {
	case 0:
		return "v0"
	case 1:
		return "v1"
	case 2:
		return "v2"
	case 3:
		return "v3"
	case 4:
		return "v4"
	case 5:
		return "v5"
	case 6:
		return "v6"
	case 7:
		return "v7"
	case 8:
		return "v8"
	case 9:
		return "v9"
	case 10:
		return "v10"
	case 11:
		return "v11"
	case 12:
		return "v12"
	case 13:
		return "v13"
	case 14:
		return "v14"
	case 15:
		return "v15"
	case 16:
		return "v16"
	case 17:
		return "v17"
	case 18:
		return "v18"
	case 19:
		return "v19"
	case 20:
		return "v20"
	case 21:
		return "v21"
	case 22:
		return "v22"
	case 23:
		return "v23"
	case 24:
		return "v24"
	case 25:
		return "v25"
	case 26:
		return "v26"
	case 27:
		return "v27"
	case 28:
		return "v28"
	case 29:
		return "v29"
	case 30:
		return "v30"
	case 31:
		return "v31"
	case 32:
		return "v32"
	case 33:
		return "v33"
	case 34:
		return "v34"
	case 35:
		return "v35"
	case 36:
		return "v36"
	case 37:
		return "v37"
	case 38:
		return "v38"
	case 39:
		return "v39"
	case 40:
		return "v40"
	case 41:
		return "v41"
	case 42:
		return "v42"
	case 43:
		return "v43"
	case 44:
		return "v44"
	case 45:
		return "v45"
	case 46:
		return "v46"
	case 47:
		return "v47"
	case 48:
		return "v48"
	case 49:
		return "v49"
	case 50:
		return "v50"
	case 51:
		return "v51"
	case 52:
		return "v52"
	case 53:
		return "v53"
	case 54:
		return "v54"
	case 55:
		return "v55"
	case 56:
		return "v56"
	case 57:
		return "v57"
	case 58:
		return "v58"
	case 59:
		return "v59"
	case 60:
		return "v60"
	case 61:
		return "v61"
	case 62:
		return "v62"
	case 63:
		return "v63"
	case 64:
		return "v64"
	case 65:
		return "v65"
	case 66:
		return "v66"
	case 67:
		return "v67"
	case 68:
		return "v68"
	case 69:
		return "v69"
	case 70:
		return "v70"
	case 71:
		return "v71"
	case 72:
		return "v72"
	case 73:
		return "v73"
	case 74:
		return "v74"
	case 75:
		return "v75"
	case 76:
		return "v76"
	case 77:
		return "v77"
	case 78:
		return "v78"
	case 79:
		return "v79"
	case 80:
		return "v80"
	case 81:
		return "v81"
	case 82:
		return "v82"
	case 83:
		return "v83"
	case 84:
		return "v84"
	case 85:
		return "v85"
	case 86:
		return "v86"
	case 87:
		return "v87"
	case 88:
		return "v88"
	case 89:
		return "v89"
	case 90:
		return "v90"
	case 91:
		return "v91"
	case 92:
		return "v92"
	case 93:
		return "v93"
	case 94:
		return "v94"
	case 95:
		return "v95"
	case 96:
		return "v96"
	case 97:
		return "v97"
	case 98:
		return "v98"
	case 99:
		return "v99"
	case 100:
		return "v100"
	case 101:
		return "v101"
	case 102:
		return "v102"
	case 103:
		return "v103"
	case 104:
		return "v104"
	case 105:
		return "v105"
	case 106:
		return "v106"
	case 107:
		return "v107"
	case 108:
		return "v108"
	case 109:
		return "v109"
	case 110:
		return "v110"
	case 111:
		return "v111"
	case 112:
		return "v112"
	case 113:
		return "v113"
	case 114:
		return "v114"
	case 115:
		return "v115"
	case 116:
		return "v116"
	case 117:
		return "v117"
	case 118:
		return "v118"
	case 119:
		return "v119"
	case 120:
		return "v120"
	case 121:
		return "v121"
	case 122:
		return "v122"
	case 123:
		return "v123"
	case 124:
		return "v124"
	case 125:
		return "v125"
	case 126:
		return "v126"
	case 127:
		return "v127"
	case 128:
		return "v128"
	case 129:
		return "v129"
	case 130:
		return "v130"
	case 131:
		return "v131"
	case 132:
		return "v132"
	case 133:
		return "v133"
	case 134:
		return "v134"
	case 135:
		return "v135"
	case 136:
		return "v136"
	case 137:
		return "v137"
	case 138:
		return "v138"
	case 139:
		return "v139"
	case 140:
		return "v140"
	case 141:
		return "v141"
	case 142:
		return "v142"
	case 143:
		return "v143"
	case 144:
		return "v144"
	case 145:
		return "v145"
	case 146:
		return "v146"
	case 147:
		return "v147"
	case 148:
		return "v148"
	case 149:
		return "v149"
	}
	return "none"
}

func g(x int) int {
	r := 0
	switch {
	case x == 0:
		r = 0 * 2
	case x == 1:
		r = 1 * 2
	case x == 2:
		r = 2 * 2
	case x == 3:
		r = 3 * 2
	case x == 4:
		r = 4 * 2
	case x == 5:
		r = 5 * 2
	case x == 6:
		r = 6 * 2
	case x == 7:
		r = 7 * 2
	case x == 8:
		r = 8 * 2
	case x == 9:
		r = 9 * 2
	case x == 10:
		r = 10 * 2
	case x == 11:
		r = 11 * 2
	case x == 12:
		r = 12 * 2
	case x == 13:
		r = 13 * 2
	case x == 14:
		r = 14 * 2
	case x == 15:
		r = 15 * 2
	case x == 16:
		r = 16 * 2
	case x == 17:
		r = 17 * 2
	case x == 18:
		r = 18 * 2
	case x == 19:
		r = 19 * 2
	case x == 20:
		r = 20 * 2
	case x == 21:
		r = 21 * 2
	case x == 22:
		r = 22 * 2
	case x == 23:
		r = 23 * 2
	case x == 24:
		r = 24 * 2
	case x == 25:
		r = 25 * 2
	case x == 26:
		r = 26 * 2
	case x == 27:
		r = 27 * 2
	case x == 28:
		r = 28 * 2
	case x == 29:
		r = 29 * 2
	case x == 30:
		r = 30 * 2
	case x == 31:
		r = 31 * 2
	case x == 32:
		r = 32 * 2
	case x == 33:
		r = 33 * 2
	case x == 34:
		r = 34 * 2
	case x == 35:
		r = 35 * 2
	case x == 36:
		r = 36 * 2
	case x == 37:
		r = 37 * 2
	case x == 38:
		r = 38 * 2
	case x == 39:
		r = 39 * 2
	case x == 40:
		r = 40 * 2
	case x == 41:
		r = 41 * 2
	case x == 42:
		r = 42 * 2
	case x == 43:
		r = 43 * 2
	case x == 44:
		r = 44 * 2
	case x == 45:
		r = 45 * 2
	case x == 46:
		r = 46 * 2
	case x == 47:
		r = 47 * 2
	case x == 48:
		r = 48 * 2
	case x == 49:
		r = 49 * 2
	case x == 50:
		r = 50 * 2
	case x == 51:
		r = 51 * 2
	case x == 52:
		r = 52 * 2
	case x == 53:
		r = 53 * 2
	case x == 54:
		r = 54 * 2
	case x == 55:
		r = 55 * 2
	case x == 56:
		r = 56 * 2
	case x == 57:
		r = 57 * 2
	case x == 58:
		r = 58 * 2
	case x == 59:
		r = 59 * 2
	case x == 60:
		r = 60 * 2
	case x == 61:
		r = 61 * 2
	case x == 62:
		r = 62 * 2
	case x == 63:
		r = 63 * 2
	case x == 64:
		r = 64 * 2
	case x == 65:
		r = 65 * 2
	case x == 66:
		r = 66 * 2
	case x == 67:
		r = 67 * 2
	case x == 68:
		r = 68 * 2
	case x == 69:
		r = 69 * 2
	case x == 70:
		r = 70 * 2
	case x == 71:
		r = 71 * 2
	case x == 72:
		r = 72 * 2
	case x == 73:
		r = 73 * 2
	case x == 74:
		r = 74 * 2
	case x == 75:
		r = 75 * 2
	case x == 76:
		r = 76 * 2
	case x == 77:
		r = 77 * 2
	case x == 78:
		r = 78 * 2
	case x == 79:
		r = 79 * 2
	case x == 80:
		r = 80 * 2
	case x == 81:
		r = 81 * 2
	case x == 82:
		r = 82 * 2
	case x == 83:
		r = 83 * 2
	case x == 84:
		r = 84 * 2
	case x == 85:
		r = 85 * 2
	case x == 86:
		r = 86 * 2
	case x == 87:
		r = 87 * 2
	case x == 88:
		r = 88 * 2
	case x == 89:
		r = 89 * 2
	case x == 90:
		r = 90 * 2
	case x == 91:
		r = 91 * 2
	case x == 92:
		r = 92 * 2
	case x == 93:
		r = 93 * 2
	case x == 94:
		r = 94 * 2
	case x == 95:
		r = 95 * 2
	case x == 96:
		r = 96 * 2
	case x == 97:
		r = 97 * 2
	case x == 98:
		r = 98 * 2
	case x == 99:
		r = 99 * 2
	case x == 100:
		r = 100 * 2
	case x == 101:
		r = 101 * 2
	case x == 102:
		r = 102 * 2
	case x == 103:
		r = 103 * 2
	case x == 104:
		r = 104 * 2
	case x == 105:
		r = 105 * 2
	case x == 106:
		r = 106 * 2
	case x == 107:
		r = 107 * 2
	case x == 108:
		r = 108 * 2
	case x == 109:
		r = 109 * 2
	case x == 110:
		r = 110 * 2
	case x == 111:
		r = 111 * 2
	case x == 112:
		r = 112 * 2
	case x == 113:
		r = 113 * 2
	case x == 114:
		r = 114 * 2
	case x == 115:
		r = 115 * 2
	case x == 116:
		r = 116 * 2
	case x == 117:
		r = 117 * 2
	case x == 118:
		r = 118 * 2
	case x == 119:
		r = 119 * 2
	case x == 120:
		r = 120 * 2
	case x == 121:
		r = 121 * 2
	case x == 122:
		r = 122 * 2
	case x == 123:
		r = 123 * 2
	case x == 124:
		r = 124 * 2
	case x == 125:
		r = 125 * 2
	case x == 126:
		r = 126 * 2
	case x == 127:
		r = 127 * 2
	case x == 128:
		r = 128 * 2
	case x == 129:
		r = 129 * 2
	case x == 130:
		r = 130 * 2
	case x == 131:
		r = 131 * 2
	case x == 132:
		r = 132 * 2
	case x == 133:
		r = 133 * 2
	case x == 134:
		r = 134 * 2
	case x == 135:
		r = 135 * 2
	case x == 136:
		r = 136 * 2
	case x == 137:
		r = 137 * 2
	case x == 138:
		r = 138 * 2
	case x == 139:
		r = 139 * 2
	case x == 140:
		r = 140 * 2
	case x == 141:
		r = 141 * 2
	case x == 142:
		r = 142 * 2
	case x == 143:
		r = 143 * 2
	case x == 144:
		r = 144 * 2
	case x == 145:
		r = 145 * 2
	case x == 146:
		r = 146 * 2
	case x == 147:
		r = 147 * 2
	case x == 148:
		r = 148 * 2
	case x == 149:
		r = 149 * 2
	default:
		r = -1
	}
	return r
}

func main() {
	fmt.Println(f(149), f(3), f(200), g(149), g(1), g(500))
	a := 1
	x := a + a + a + a + a + a + a + a + a + a + a + a + a + a + a + a + a + a + a + a + a + a + a + a + a + a + a + a + a + a + a + a + a + a + a + a + a + a + a + a + a + a + a + a + a + a + a + a + a + a + a + a + a + a + a + a + a + a + a + a + a + a + a + a + a + a + a + a + a + a + a + a + a + a + a + a + a + a + a + a + a + a + a + a + a + a + a + a + a + a + a + a + a + a + a + a + a + a + a + a + a + a + a + a + a + a + a + a + a + a + a + a + a + a + a + a + a + a + a + a + a + a + a + a + a + a + a + a + a + a + a + a + a + a + a + a + a + a + a + a + a + a + a + a + a + a + a + a + a + a + a + a + a + a + a + a + a + a + a + a + a + a + a + a + a + a + a + a + a + a + a + a + a + a + a + a + a + a + a + a + a + a + a + a + a + a + a + a + a + a + a + a + a + a + a + a + a + a + a + a + a + a + a + a + a + a + a + a + a + a + a + a + a + a + a + a + a + a + a + a + a + a + a + a + a + a + a + a + a + a + a + a + a + a + a + a + a + a + a + a + a + a + a + a + a + a + a + a + a + a + a + a + a + a + a + a + a + a + a + a + a + a + a + a + a + a + a + a + a + a + a + a + a + a + a + a + a + a + a + a + a + a + a + a + a + a + a + a + a + a + a + a + a + a + a + a + a + a + a + a + a + a + a + a + a + a + a + a + a + a + a + a + a + a + a + a + a + a + a + a + a + a + a + a + a + a + a + a + a + a + a + a + a + a + a + a + a + a + a + a + a + a + a + a + a + a + a + a + a + a + a + a + a + a + a + a + a + a + a + a + a + a + a + a + a + a + a + a + a + a + a + a + a + a + a + a + a + a + a + a + a + a + a + a + a + a + a + a + a + a + a + a + a + a + a + a + a + a + a + a
	t := "a"
	y := t + t + t + t + t + t + t + t + t + t + t + t + t + t + t + t + t + t + t + t + t + t + t + t + t + t + t + t + t + t + t + t + t + t + t + t + t + t + t + t + t + t + t + t + t + t + t + t + t + t + t + t + t + t + t + t + t + t + t + t + t + t + t + t + t + t + t + t + t + t + t + t + t + t + t + t + t + t + t + t + t + t + t + t + t + t + t + t + t + t + t + t + t + t + t + t + t + t + t + t + t + t + t + t + t + t + t + t + t + t + t + t + t + t + t + t + t + t + t + t + t + t + t + t + t + t + t + t + t + t + t + t + t + t + t + t + t + t + t + t + t + t + t + t + t + t + t + t + t + t + t + t + t + t + t + t + t + t + t + t + t + t + t + t + t + t + t + t + t + t + t + t + t + t + t + t + t + t + t + t + t + t + t + t + t + t + t + t + t + t + t + t + t + t + t + t + t + t + t + t
	fmt.Println(x, len(y))
	var v any = 7
	switch u := v.(type) {
	case [1]int:
		fmt.Println(len(u))
	case [2]int:
		fmt.Println(len(u))
	case [3]int:
		fmt.Println(len(u))
	case [4]int:
		fmt.Println(len(u))
	case [5]int:
		fmt.Println(len(u))
	case [6]int:
		fmt.Println(len(u))
	case [7]int:
		fmt.Println(len(u))
	case [8]int:
		fmt.Println(len(u))
	case [9]int:
		fmt.Println(len(u))
	case [10]int:
		fmt.Println(len(u))
	case [11]int:
		fmt.Println(len(u))
	case [12]int:
		fmt.Println(len(u))
	case [13]int:
		fmt.Println(len(u))
	case [14]int:
		fmt.Println(len(u))
	case [15]int:
		fmt.Println(len(u))
	case [16]int:
		fmt.Println(len(u))
	case [17]int:
		fmt.Println(len(u))
	case [18]int:
		fmt.Println(len(u))
	case [19]int:
		fmt.Println(len(u))
	case [20]int:
		fmt.Println(len(u))
	case [21]int:
		fmt.Println(len(u))
	case [22]int:
		fmt.Println(len(u))
	case [23]int:
		fmt.Println(len(u))
	case [24]int:
		fmt.Println(len(u))
	case [25]int:
		fmt.Println(len(u))
	case [26]int:
		fmt.Println(len(u))
	case [27]int:
		fmt.Println(len(u))
	case [28]int:
		fmt.Println(len(u))
	case [29]int:
		fmt.Println(len(u))
	case [30]int:
		fmt.Println(len(u))
	case [31]int:
		fmt.Println(len(u))
	case [32]int:
		fmt.Println(len(u))
	case [33]int:
		fmt.Println(len(u))
	case [34]int:
		fmt.Println(len(u))
	case [35]int:
		fmt.Println(len(u))
	case [36]int:
		fmt.Println(len(u))
	case [37]int:
		fmt.Println(len(u))
	case [38]int:
		fmt.Println(len(u))
	case [39]int:
		fmt.Println(len(u))
	case [40]int:
		fmt.Println(len(u))
	case [41]int:
		fmt.Println(len(u))
	case [42]int:
		fmt.Println(len(u))
	case [43]int:
		fmt.Println(len(u))
	case [44]int:
		fmt.Println(len(u))
	case [45]int:
		fmt.Println(len(u))
	case [46]int:
		fmt.Println(len(u))
	case [47]int:
		fmt.Println(len(u))
	case [48]int:
		fmt.Println(len(u))
	case [49]int:
		fmt.Println(len(u))
	case [50]int:
		fmt.Println(len(u))
	case [51]int:
		fmt.Println(len(u))
	case [52]int:
		fmt.Println(len(u))
	case [53]int:
		fmt.Println(len(u))
	case [54]int:
		fmt.Println(len(u))
	case [55]int:
		fmt.Println(len(u))
	case [56]int:
		fmt.Println(len(u))
	case [57]int:
		fmt.Println(len(u))
	case [58]int:
		fmt.Println(len(u))
	case [59]int:
		fmt.Println(len(u))
	case [60]int:
		fmt.Println(len(u))
	case [61]int:
		fmt.Println(len(u))
	case [62]int:
		fmt.Println(len(u))
	case [63]int:
		fmt.Println(len(u))
	case [64]int:
		fmt.Println(len(u))
	case [65]int:
		fmt.Println(len(u))
	case [66]int:
		fmt.Println(len(u))
	case [67]int:
		fmt.Println(len(u))
	case [68]int:
		fmt.Println(len(u))
	case [69]int:
		fmt.Println(len(u))
	case [70]int:
		fmt.Println(len(u))
	case int:
		fmt.Println("int", u)
	}
}
